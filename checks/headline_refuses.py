#!/usr/bin/env python3
"""Shows that the laws refuse bugs that are consistent with all lower crates.

Each file headline/*.bug changes, for one bug, a definition, the code, and the lemmas about them, so that all of them agree on the
bug. In a copy of the crates with these changes, the lower crates must still be proved, and a law of a higher crate must be refused.
README.md describes the form of such a file.

The arguments name the bugs to try. Without arguments all bugs are tried, several at once if the machine has the memory. First the
crates are proved without a bug, as far as earlier checks have not; each bug starts from the stored results. With `--minutes N`, no
bug is tried later than N minutes after the start.

The last line is 'N refused by their laws, M not', and how many were not tried in time. Exit status: 0 if no bug is accepted or refused
elsewhere, 1 if one is, or the crates are not proved, 2 if a text to replace does not occur exactly once, or a bug does not exist.
"""

import argparse
import shutil
import subprocess
import sys
import tempfile
import textwrap
import time
from concurrent.futures import ThreadPoolExecutor
from pathlib import Path

HERE = Path(__file__).resolve().parent
TOP = HERE.parent
BUGS = HERE / "headline"
sys.dont_write_bytecode = True
sys.path.insert(0, str(TOP / "tools"))
from crates import below, copy_crates, lines_of_crates
from kit import rt_module
from lanes import side_by_side

# The prover's messages about a goal that is not proved, as opposed to a text that it cannot parse.
UNPROVED = ("the goal does not follow", "it is not proved that")
ERROR = ": error: "
# The memory that the check of the theorems takes, in GiB.
CHECK_GIB = 3


class Bug:
    """A bug: the changed texts, the crates that must still be proved, and the crate and the law that must be refused."""

    def __init__(self, path):
        self.name = path.stem
        self.says = {}
        self.texts = {}
        file, old, new = None, [], []
        for line in [*path.read_text().splitlines(), "file:"]:
            word, _, text = line.partition(":")
            text = text.removeprefix(" ")
            if new and word in ("old", "file"):
                self.rewrite(file, "\n".join(old), "\n".join(new))
                old, new = [], []
            if word == "old":
                old.append(text)
            elif word == "new":
                new.append(text)
            elif word == "file":
                file = text
            elif word:
                self.says[word] = text
        self.proves = self.says["proves"].split()
        self.refuses = self.says["refuses"]
        self.law = self.says["law"]

    def rewrite(self, file, old, new):
        """Replaces the old text with the new one. Raises LookupError unless the old text occurs in the file exactly once."""
        text = self.texts.get(file) or (TOP / file).read_text()
        times = text.count(old)
        if times != 1:
            raise LookupError(f"{self.name}: {file} has this text {times} times instead of once: {old}")
        self.texts[file] = text.replace(old, new)


def copy(bug, folder):
    """Copies the crates that are checked, with the changed texts and the results of earlier checks."""
    lines = lines_of_crates()
    names = below(lines, [*bug.proves, bug.refuses])
    copy_crates(lines, names, folder)
    for name in names:
        shutil.copytree(TOP / "crates" / name / "out", folder / "crates" / name / "out", symlinks=True)
    for file, text in bug.texts.items():
        (folder / file).write_text(text)


def check(folder, crate, command="check"):
    """Checks a crate, or proves and builds its library if the command is `lib`. Returns whether the crate is proved, and the lines that
    the prover prints."""
    done = subprocess.run(["rt", command], cwd=folder / "crates" / crate, stdin=subprocess.DEVNULL,
                          stdout=subprocess.PIPE, stderr=subprocess.STDOUT, text=True)
    return done.returncode == 0, done.stdout.splitlines()


def tells(line, words):
    """Returns whether the line contains one of these texts."""
    return any(word in line for word in words)


def first_refusal(said):
    """Returns the first line that reports an error, without the hints at its end, or the last line if there is none."""
    line = next((line for line in said if tells(line, (ERROR, *UNPROVED))), said[-1] if said else "there is no output")
    return textwrap.shorten(line, width=300, placeholder=" ..")


def attempt(bug, folder):
    """Tries a bug. Returns whether its law refuses it, the result in words, and the prover's line."""
    copy(bug, folder)
    for crate in bug.proves:
        # the check of the crate above needs the library anyway
        proved, said = check(folder, crate, "lib")
        if not proved:
            return False, f"refused by the lower crate {crate}", first_refusal(said)
    proved, said = check(folder, bug.refuses)
    if proved:
        return False, f"accepted by {bug.refuses}", "all is proved"
    why = first_refusal(said)
    if not tells(why, UNPROVED):
        return False, f"{bug.refuses} cannot be checked", why
    if not any(ERROR in line and f"laws/{bug.law}/" in line for line in said):
        return False, f"{bug.refuses} is refused, but not because of {bug.law}", why
    return True, f"refused by {bug.refuses}, since {bug.law} is not proved", why


def in_a_copy(bug, end):
    """Tries a bug in a copy of the crates. Returns what `attempt` returns, or None if the time `end` has passed."""
    if end is not None and time.monotonic() > end:
        return None
    with tempfile.TemporaryDirectory(prefix="headline_refuses.") as folder:
        return attempt(bug, Path(folder))


def proved_without_bugs(crates):
    """Returns whether the crates are proved as they are. Prints what is not."""
    for crate in crates:
        proved, said = check(TOP, crate)
        if not proved:
            print(f"{crate} is not proved, so its bugs show nothing: {first_refusal(said)}")
            return False
    return True


def main():
    parser = argparse.ArgumentParser(description=__doc__.splitlines()[0])
    parser.add_argument("--minutes", type=float)
    parser.add_argument("bugs", nargs="*")
    words = parser.parse_args()
    end = None if words.minutes is None else time.monotonic() + 60 * words.minutes
    names = words.bugs or sorted(path.stem for path in BUGS.glob("*.bug"))
    try:
        bugs = [Bug(BUGS / f"{name}.bug") for name in names]
    except (LookupError, FileNotFoundError) as fault:
        print(fault, file=sys.stderr)
        return 2
    if not proved_without_bugs(sorted({bug.refuses for bug in bugs})):
        return 1
    refused = late = 0
    with ThreadPoolExecutor(side_by_side(rt_module(), CHECK_GIB)) as pool:
        for bug, outcome in zip(bugs, pool.map(lambda bug: in_a_copy(bug, end), bugs)):
            if outcome is None:
                late += 1
                continue
            right, said, why = outcome
            refused += right
            print(f"{bug.name}: {said}\n    {why}", flush=True)
    print(f"{refused} refused by their laws, {len(bugs) - refused - late} not{f', {late} not tried in time' if late else ''}")
    return 0 if refused + late == len(bugs) else 1


if __name__ == "__main__":
    sys.exit(main())
