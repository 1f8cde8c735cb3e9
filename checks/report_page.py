#!/usr/bin/env python3
"""Opens the reports of eight plans in a headless Chromium, and checks them.

    python3 checks/report_page.py               # checks the reports
    python3 checks/report_page.py --pictures    # also writes a picture of each without faults to docs/pictures

Each report is what `sizing ask --format html` writes for a plan. For each report:

- its data are the answer of `sizing ask --format json`;
- the outcomes of its events are those that `sizing replay` prints;
- the console has no error, and the page makes no request to the network;
- the expected texts are there, and nothing is wider than a window of 1,200 pixels, on screen and in print;
- each text has a contrast of at least 4.5 to its background, in the light and in the dark colour scheme;
- the Tab key reaches each link and each folded part, in order, and the page marks the part that has the focus;
- a link to a line of the plan shows that line.

The program is crates/sizing/out/sizing, or the one that the environment variable SIZING names. Chromium is that of Debian's
package `chromium`. Without it, the check prints a line that says so, and the exit status is 0. `pngquant` makes the pictures
smaller, if it is installed.

Exit status: 0 if all of this holds, 1 if not, 2 if there is no program.
"""

import json
import re
import shutil
import subprocess
import sys
import tempfile
from pathlib import Path
from typing import NamedTuple

sys.dont_write_bytecode = True

from asking import built_program
from browser import Browser, installed

ROOT = Path(__file__).resolve().parent.parent


class Sample(NamedTuple):
    """A plan, and texts that must be in its report."""

    name: str
    plan: str
    texts: list


SAMPLES = [
    Sample(
        "refused",
        "examples/two-clients.toml",
        ["NOT SAFE", "Pool p refuses a submit after 7 events", "p queue 1 → 2", "queue = 2", "1 thread of p is idle"],
    ),
    Sample(
        "stuck-forever",
        "examples/cross-pools.toml",
        ["4 jobs wait only for each other, forever", "p core 1 → 2", "needs a thread that is held by"],
    ),
    Sample(
        "stuck-now",
        "examples/stuck-for-now.toml",
        ["2 jobs wait only for each other, until another submit helps", "Warnings", "p core 1 → 2"],
    ),
    Sample(
        "safe",
        "examples/web-and-database-sized.toml",
        ["SAFE", "no submit is ever refused", "at most 25 of 25 places in use: 24 visitor, 1 crawler", "What this assumes"],
    ),
    Sample(
        "300-events",
        "examples/thirty-endpoints-queue-199.toml",
        ["after 328 events", "steps not shown", "All 131 steps", "queries queue 199 → 200"],
    ),
    Sample(
        "64-pools",
        "web/samples/sixty-four-pools.toml",
        ["Pool ledger refuses a submit", "64 pools, 84 classes", "61 other pools", "84 kinds of submits"],
    ),
    Sample(
        "faults",
        "checks/mistakes/two_slips.toml",
        ["The text has 2 faults, so the sizes were not checked.", "count is 0", "did you mean rows?"],
    ),
    # its report shows no text, and so has no folded part
    Sample(
        "no-text",
        "checks/mistakes/utf16.toml",
        ["The text has 1 fault, so the sizes were not checked.", "the file is UTF-16: save it as UTF-8"],
    ),
]
# The data of a report.
DATA = re.compile(r'<script id="answer" type="application/json">(.*?)</script>', re.S)
WIDTH = 1200
# The maximum height of a picture in pixels. The report below it is cut off.
MOST_PIXELS = 1800
SECONDS = 300

# The texts whose contrast is too low, each with its contrast. The background of a text is that of the first filled element under it.
CONTRAST = """(() => {
  const parse = color => {
    const found = color.match(/[\\d.]+/g);
    return found && {rgb: found.slice(0, 3).map(Number), alpha: found.length > 3 ? +found[3] : 1};
  };
  const linear = each => each <= .03928 ? each / 12.92 : ((each + .055) / 1.055) ** 2.4;
  const light = rgb => {
    const [r, g, b] = rgb.map(each => linear(each / 255));
    return .2126 * r + .7152 * g + .0722 * b;
  };
  const fill = (element, style) => {
    if (!(element instanceof SVGElement)) return parse(style.backgroundColor);
    // a pattern is no ground
    if (!["rect", "path"].includes(element.tagName) || !style.fill.startsWith("rgb")) return null;
    const {rgb, alpha} = parse(style.fill);
    return {rgb, alpha: alpha * style.fillOpacity};
  };
  const ground = (x, y, self) => {
    for (const element of document.elementsFromPoint(x, y)) {
      if (element === self) continue;
      const found = fill(element, getComputedStyle(element));
      if (found && found.alpha > .5) return found.rgb;
    }
    return parse(getComputedStyle(document.body).backgroundColor).rgb;
  };
  const low = [];
  const walker = document.createTreeWalker(document.querySelector("main"), NodeFilter.SHOW_TEXT);
  while (walker.nextNode()) {
    const node = walker.currentNode, element = node.parentElement;
    if (!node.textContent.trim() || !element.checkVisibility()) continue;
    const range = document.createRange();
    range.selectNodeContents(node);
    const box = range.getClientRects()[0];
    if (!box || !box.width) continue;
    const style = getComputedStyle(element), isDrawn = element instanceof SVGElement;
    const ink = parse(isDrawn ? style.fill : style.color).rgb;
    const behind = ground(box.x + box.width / 2, box.y + box.height / 2, isDrawn ? element : null);
    const [one, other] = [light(ink), light(behind)].sort((a, b) => b - a);
    const contrast = (one + .05) / (other + .05);
    if (contrast < 4.5) low.push(`${contrast.toFixed(2)}: ${node.textContent.trim().slice(0, 40)}`);
  }
  return low;
})()"""

# The elements that the Tab key must reach.
FOCUSABLE = "[...document.querySelectorAll('a[href], summary')].filter(each => each.checkVisibility())"
FOCUSED = f"""(() => {{
  const at = {FOCUSABLE}.indexOf(document.activeElement);
  return [at, at >= 0 && getComputedStyle(document.activeElement).outlineStyle !== "none"];
}})()"""
WIDER = """[document.documentElement, ...document.querySelectorAll(".drawing, pre, section")]
  .filter(each => each.scrollWidth > each.clientWidth + 1).map(each => `${each.tagName} ${each.scrollWidth} above ${each.clientWidth}`)"""
TALL = "Math.ceil(document.documentElement.getBoundingClientRect().height)"
# A script that returns whether a link to a line of the plan shows the line.
LINK = """(() => {
  const link = document.querySelector("a[href^='#L']");
  if (!link) return true;
  link.click();
  const target = document.querySelector(link.getAttribute("href"));
  const box = target && target.checkVisibility() && target.getBoundingClientRect();
  return !!box && box.top >= 0 && box.bottom <= innerHeight;
})()"""
# A script that focuses the first folded part and returns whether it is open, or null if there is none.
FIRST_SUMMARY = """(() => {
  const summary = document.querySelector("summary");
  if (!summary) return null;
  summary.focus();
  return summary.parentElement.open;
})()"""
IS_OPEN = "document.querySelector('summary').parentElement.open"


def problems(browser, sample, page):
    """Yields a line for each fault of a report."""
    browser.media("light")
    browser.resize(WIDTH, 900)
    browser.open(page)
    if found := list(browser.problems()):
        yield from found
        return
    text = browser.evaluate("document.querySelector('main').textContent.replace(/\\s+/g, ' ')")
    yield from (f"the text {wanted!r} is missing" for wanted in sample.texts if wanted not in text)
    yield from (f"too wide: {each}" for each in browser.evaluate(WIDER))
    yield from keyboard_problems(browser)
    if not browser.evaluate(LINK):
        yield "a link to a line of the plan does not show the line"
    # printing opens all folded parts
    browser.evaluate("window.dispatchEvent(new Event('beforeprint'))")
    yield from (f"too wide when it is unfolded: {each}" for each in browser.evaluate(WIDER))
    browser.resize(WIDTH, browser.evaluate(TALL))
    for scheme in ("light", "dark"):
        browser.media(scheme)
        yield from (f"contrast in {scheme} {each}" for each in browser.evaluate(CONTRAST))
    browser.media("light", "print")
    yield from (f"too wide in print: {each}" for each in browser.evaluate(WIDER))
    yield from browser.problems()


def keyboard_problems(browser):
    """Yields a line for each link and folded part that the Tab key does not reach in its order, or that is not marked then."""
    count = browser.evaluate(f"{FOCUSABLE}.length")
    for index in range(count):
        browser.press("Tab", 9)
        at, is_marked = browser.evaluate(FOCUSED)
        if at != index:
            yield f"the Tab key reaches {at}, and not {index} of {count}"
            return
        if not is_marked:
            yield f"nothing marks the focus on {index} of {count}"
    before = browser.evaluate(FIRST_SUMMARY)
    if before is None:
        return
    browser.press("Enter", 13, "\r")
    if browser.evaluate(IS_OPEN) == before:
        yield "the Enter key does not unfold"
    browser.press("Enter", 13, "\r")


def picture(browser, sample, page):
    """Writes a picture of a report."""
    path = ROOT / "docs" / "pictures" / f"report-{sample.name}.png"
    browser.media("light")
    browser.resize(WIDTH, 900)
    browser.open(page)
    browser.picture(path, MOST_PIXELS)
    if shutil.which("pngquant"):
        subprocess.run(["pngquant", "--force", "--strip", "--output", path, "64", path], check=True)


def asked(program, sample, form):
    """Returns the answer to a plan in this format."""
    words = [program, "ask", "--format", form, ROOT / sample.plan]
    return subprocess.run(words, capture_output=True, text=True, encoding="utf-8", timeout=SECONDS, check=False).stdout


def data_problems(sample, page, json_line):
    """Yields a line if the data of the report are not the answer."""
    found = DATA.search(page)
    if not found or found[1] != json_line.rstrip("\n").replace("<", "\\u003c"):
        yield f"{sample.name}: the data of the report are not the answer"


def outcomes(answer):
    """Yields the expected line of `sizing replay` for each event of the witness, without the number of the event."""
    plan = {entry["name"]: entry["body"] for entry in answer["plan"]["classes"]}
    plan |= {f"client {entry['name']}": entry["body"] for entry in answer["plan"]["clients"]}
    for event in answer["witness"]["events"]:
        for turn in range(event["times"]):
            outcome, actor = event["outcome"], event["actor"]
            if outcome == "worked":
                body = plan[actor["class"] if "class" in actor else f"client {actor['client']}"]
                yield f"worked {body[event['action']]['units']}"
            elif outcome == "refused":
                yield f"refused by {event['pool']['name']}"
            else:
                yield outcome if event["job"] is None else f"{outcome} job {event['job'] + turn}"


def replay_problems(program, sample, answer):
    """Yields a line if the outcomes in the report differ from those of `sizing replay`."""
    if not answer["witness"]:
        return
    events = answer["witness"]["replay"]
    text = (ROOT / sample.plan).read_text(encoding="utf-8") + "%%\n" + "".join(f"{event}\n" for event in events)
    ran = subprocess.run([program, "replay"], input=text, capture_output=True, text=True, timeout=SECONDS, check=False)
    found = [line.split(": ")[1] for line in ran.stdout.splitlines() if ": " in line and ": stuck" not in line]
    if found != list(outcomes(answer)):
        yield f"{sample.name}: `sizing replay` prints {found[:40]}, and not {list(outcomes(answer))[:40]}"


def main(words):
    if not (program := built_program()):
        return 2
    if not installed():
        print("Chromium is not installed, so no report was opened: apt-get install chromium")
        return 0
    wrong = []
    with tempfile.TemporaryDirectory(prefix="sizing-reports-") as folder, Browser(WIDTH, 900) as browser:
        for sample in SAMPLES:
            page = Path(folder) / f"{sample.name}.html"
            html, json_line = asked(program, sample, "html"), asked(program, sample, "json")
            answer = json.loads(json_line)
            page.write_text(html, encoding="utf-8")
            wrong += data_problems(sample, html, json_line)
            wrong += replay_problems(program, sample, answer)
            wrong += [f"{sample.name}: {each}" for each in problems(browser, sample, page)]
            if "--pictures" in words and answer["answer"] != "FAULTS":
                picture(browser, sample, page)
    print(*wrong, sep="\n", end="\n" if wrong else "")
    print(f"{len(SAMPLES)} reports: {len(wrong)} wrong")
    return 1 if wrong else 0


if __name__ == "__main__":
    sys.exit(main(sys.argv[1:]))
