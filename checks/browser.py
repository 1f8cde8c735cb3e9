"""A headless Chromium, which is controlled over a pipe by the DevTools protocol."""

import base64
import json
import os
import select
import shutil
import subprocess
import tempfile
import time
from pathlib import Path

OPTIONS = [
    "--headless=new",
    "--no-sandbox",
    "--disable-gpu",
    "--hide-scrollbars",
    "--no-first-run",
    "--disable-background-networking",
    "--disable-component-update",
    "--remote-debugging-pipe",
]
SECONDS = 120


def installed():
    """Returns the path of Chromium, or None if it is not installed."""
    return shutil.which("chromium") or shutil.which("chromium-browser")


class Browser:
    """A Chromium with one page, to be used in a `with` statement."""

    def __init__(self, width=1200, height=900):
        self.width, self.height = width, height
        self.last, self.unread, self.events = 0, b"", []

    def __enter__(self):
        self.folder = tempfile.mkdtemp(prefix="sizing-chromium-")
        for_it, ours = os.pipe(), os.pipe()
        # Chromium reads commands from descriptor 3, and writes answers to descriptor 4
        script = f'exec "$0" "$@" 3<&{for_it[0]} 4>&{ours[1]}'
        command = ["bash", "-c", script, installed(), *OPTIONS, f"--user-data-dir={self.folder}", "about:blank"]
        silent = dict.fromkeys(("stdout", "stderr"), subprocess.DEVNULL)
        self.process = subprocess.Popen(command, pass_fds=(for_it[0], ours[1]), **silent)
        os.close(for_it[0])
        os.close(ours[1])
        self.writes, self.reads = for_it[1], ours[0]
        self.session = None
        target = self.call("Target.createTarget", url="about:blank")["targetId"]
        self.session = self.call("Target.attachToTarget", targetId=target, flatten=True)["sessionId"]
        for domain in ("Page", "Runtime", "Log", "Network"):
            self.call(f"{domain}.enable")
        self.resize(self.width, self.height)
        return self

    def __exit__(self, *_):
        self.process.terminate()
        self.process.wait()
        os.close(self.writes)
        os.close(self.reads)
        shutil.rmtree(self.folder, ignore_errors=True)

    def call(self, method, **parameters):
        """Calls a method of the protocol, and returns its result."""
        self.last += 1
        message = {"id": self.last, "method": method, "params": parameters}
        if self.session:
            message["sessionId"] = self.session
        os.write(self.writes, json.dumps(message).encode() + b"\0")
        while True:
            answer = self.read()
            if answer.get("id") == self.last:
                if "error" in answer:
                    raise RuntimeError(f"{method}: {answer['error']}")
                return answer["result"]
            self.events.append(answer)

    def read(self):
        """Returns the next message of Chromium."""
        deadline = time.monotonic() + SECONDS
        while b"\0" not in self.unread:
            ready, _, _ = select.select([self.reads], [], [], max(deadline - time.monotonic(), 0))
            part = os.read(self.reads, 1 << 20) if ready else b""
            if not part:
                raise RuntimeError("Chromium does not answer")
            self.unread += part
        message, _, self.unread = self.unread.partition(b"\0")
        return json.loads(message)

    def resize(self, width, height):
        """Sets the size of the window, in CSS pixels."""
        self.call("Emulation.setDeviceMetricsOverride", width=width, height=height, deviceScaleFactor=1, mobile=False)

    def media(self, scheme="light", media="screen"):
        """Sets the colour scheme (light or dark) and the medium (screen or print)."""
        self.call("Emulation.setEmulatedMedia", media=media, features=[{"name": "prefers-color-scheme", "value": scheme}])

    def open(self, path):
        """Opens a file as the page, and waits until it is loaded."""
        self.events = []
        self.call("Page.navigate", url=Path(path).resolve().as_uri())
        while not any(event.get("method") == "Page.loadEventFired" for event in self.events):
            self.events.append(self.read())
        # wait for the end of a further call, so that all earlier messages of the page have arrived
        self.evaluate("new Promise(done => requestAnimationFrame(() => setTimeout(done, 50)))")

    def evaluate(self, script):
        """Returns the value of a JavaScript expression, evaluated in the page."""
        found = self.call("Runtime.evaluate", expression=script, returnByValue=True, awaitPromise=True)
        if "exceptionDetails" in found:
            raise RuntimeError(f"{script[:80]}: {found['exceptionDetails']}")
        return found["result"].get("value")

    def problems(self):
        """Yields a line for each error that the page reported, and for each request except that for the page itself."""
        for event in self.events:
            method, params = event.get("method"), event.get("params", {})
            if method == "Runtime.exceptionThrown":
                details = params["exceptionDetails"]
                yield f"exception: {details.get('exception', {}).get('description', details['text'])}"
            elif method == "Runtime.consoleAPICalled" and params["type"] in ("error", "warning", "assert"):
                yield f"console: {' '.join(str(each.get('value', each.get('description'))) for each in params['args'])}"
            elif method == "Log.entryAdded" and params["entry"]["level"] in ("error", "warning"):
                yield f"log: {params['entry']['text']}"
            elif method == "Network.requestWillBeSent" and params.get("type") != "Document":
                yield f"request: {params['request']['url'][:200]}"

    def press(self, key, code, text=""):
        """Presses and releases a key, which enters this text."""
        named = {"key": key, "code": key, "windowsVirtualKeyCode": code}
        self.call("Input.dispatchKeyEvent", type="keyDown" if text else "rawKeyDown", text=text, **named)
        self.call("Input.dispatchKeyEvent", type="keyUp", **named)

    def picture(self, path, most=None):
        """Writes a picture of the page as PNG. It is at most `most` pixels tall, if `most` is given."""
        tall = int(self.evaluate("Math.ceil(document.querySelector('main').getBoundingClientRect().bottom)"))
        clip = {"x": 0, "y": 0, "width": self.width, "height": min(tall, most or tall), "scale": 1}
        data = self.call("Page.captureScreenshot", format="png", clip=clip, captureBeyondViewport=True, optimizeForSpeed=False)["data"]
        Path(path).write_bytes(base64.b64decode(data))
