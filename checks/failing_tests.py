#!/usr/bin/env python3
"""Shows that tests find bugs that no contract refuses.

Each file bugs/*.edit changes a function body so that it is wrong but still satisfies its contract, and names the crate whose tests
must find this bug. The check tries each bug in a copy of the repository, with tools/tried.py --test, which proves nothing. A test
that also fails in an unchanged copy, for example because a loaded machine exceeds the test's time limit, does not count.

The arguments name the bugs to try. Without arguments all bugs are tried.

Exit status: 0 if each bug is found, 1 if one is not found or its tests are not run, 2 if a text to replace does not occur exactly
once, or a bug does not exist.
"""

import re
import shutil
import subprocess
import sys
import tempfile
import time
from pathlib import Path

HERE = Path(__file__).resolve().parent
TOP = HERE.parent
BUGS = HERE / "bugs"
PASSED = re.compile(r"^test (\S+) \.\.\. ok", re.MULTILINE)
FAILED = re.compile(r"^test (\S+) \.\.\. FAILED", re.MULTILINE)


class Bug:
    """A bug: the changed texts, and the crate whose tests must find the bug."""

    def __init__(self, path):
        self.name = path.stem
        self.texts = {}
        file, old = None, None
        for line in path.read_text().splitlines():
            word, _, text = line.partition(": ")
            if word == "tests":
                self.tests = text
            elif word == "file":
                file = text
            elif word == "old":
                old = text
            elif word == "new":
                self.rewrite(file, old, text)

    def rewrite(self, file, old, new):
        """Replaces the old text with the new one. Raises LookupError unless the old text occurs in the file exactly once."""
        text = self.texts.get(file) or (TOP / file).read_text()
        times = text.count(old)
        if times != 1:
            raise LookupError(f"{self.name}: {file} has this text {times} times instead of once: {old}")
        self.texts[file] = text.replace(old, new)


def tested(crate, texts):
    """Runs the crate's tests in a copy of the repository with these texts. Returns the tests that pass, the tests that fail, and the last
    line of the output."""
    with tempfile.TemporaryDirectory(prefix="failing_tests.") as folder:
        top = Path(folder) / "copy"
        shutil.copytree(TOP, top, ignore=shutil.ignore_patterns(".git", "out"), symlinks=True)
        for file, text in texts.items():
            (top / file).write_text(text)
        done = subprocess.run([sys.executable, TOP / "tools" / "tried.py", "--test"], cwd=top / "crates" / crate,
                              stdin=subprocess.DEVNULL, stdout=subprocess.PIPE, stderr=subprocess.STDOUT, text=True)
    said = done.stdout.splitlines()
    return set(PASSED.findall(done.stdout)), set(FAILED.findall(done.stdout)), said[-1] if said else "there is no output"


def main():
    names = sys.argv[1:] or sorted(path.stem for path in BUGS.glob("*.edit"))
    try:
        bugs = [Bug(BUGS / f"{name}.edit") for name in names]
    except (LookupError, FileNotFoundError) as fault:
        print(fault, file=sys.stderr)
        return 2
    right = {crate: tested(crate, {})[0] for crate in sorted({bug.tests for bug in bugs})}
    found_out = 0
    for bug in bugs:
        began = time.monotonic()
        _, failed, last = tested(bug.tests, bug.texts)
        failed &= right[bug.tests]
        found_out += bool(failed)
        outcome = f"found by {', '.join(sorted(failed))}" if failed else f"no test of {bug.tests} finds it: {last}"
        print(f"{bug.name}: {outcome} ({time.monotonic() - began:.0f} s)", flush=True)
    print(f"{found_out} found by tests, {len(bugs) - found_out} not")
    return 0 if found_out == len(bugs) else 1


if __name__ == "__main__":
    sys.exit(main())
