#!/usr/bin/env python3
"""Runs the program on each example of this folder, and compares its answers with the stored ones.

An example is a plan NAME.toml with events NAME.events, a certificate NAME.json, or both. NAME.replay is the answer of `sizing
replay` to the plan, a line `%%` and the events. NAME.check and NAME.explain are the answers of those commands to the plan, a line
`%%` and the certificate; NAME.run is that of `sizing run --rounds 3`. NAME.fit and NAME.refute are the answers of `sizing fit`
and `sizing refute` to the plan alone. The last line of each file is the exit status. Each command runs twice: with the texts on
standard input, and with the files named. Then the check runs each command that a page quotes with its answer (pages.py). The
program is crates/sizing/out/sizing, or the one that the environment variable SIZING names.

Exit status: 0 if all examples agree, 1 if one differs, 2 if there is no program.
"""

import os
import subprocess
import sys
import tempfile
from itertools import zip_longest
from pathlib import Path

sys.dont_write_bytecode = True
from pages import commands_of, faults_of, pages

HERE = Path(__file__).resolve().parent
BUILT = HERE.parent / "crates" / "sizing" / "out" / "sizing"
# The suffix of the file with the text after the line `%%`, by command; None if the command reads only the plan.
SECOND_PARTS = {"replay": "events", "check": "json", "explain": "json", "run": "json", "fit": None, "refute": None}
# The arguments after the command.
OPTIONS = {"run": ["--rounds", "3"]}
SECONDS = 60


def main():
    program = Path(os.environ.get("SIZING") or BUILT).resolve()
    if not os.access(program, os.X_OK) or not program.is_file():
        print(f"there is no program at {program}: run `make program` at the top of the repository", file=sys.stderr)
        return 2
    examples = sorted(path for path in HERE.iterdir() if path.suffix[1:] in SECOND_PARTS)
    answers = [(answer.name, compare(program, answer)) for answer in examples]
    quoted = list(differences_of_pages(program))
    for name, difference in answers + quoted:
        print(f"{name}: {difference or 'ok'}")
    wrong = sum(difference is not None for _, difference in answers + quoted)
    print(f"{len(answers) + len(quoted) - wrong} ok, {wrong} wrong")
    return 1 if wrong or not examples or not quoted else 0


def differences_of_pages(program):
    """Yields each command that a page quotes, with the fault of its answer, and each page with its other faults."""
    with tempfile.TemporaryDirectory(prefix="sizing-pages-") as room:
        os.symlink(program, f"{room}/sizing")
        searched = {**os.environ, "PATH": f"{room}:{os.environ['PATH']}"}
        for page in pages():
            text = page.read_text(encoding="utf-8")
            for command, wanted in commands_of(text):
                ran = subprocess.run(command, shell=True, cwd=HERE, env=searched, capture_output=True, timeout=SECONDS)
                yield f"{page.name}: {command}", first_difference(wanted.encode(), ran.stdout)
            yield f"{page.name}: what it quotes and names", "; ".join(faults_of(page, text)) or None


def compare(program, answer, names_files=True):
    """Returns the fault of the program's answer to an example, on standard input or with the files named, or None."""
    command = answer.suffix[1:]
    files = [answer.with_suffix(".toml")]
    if SECOND_PARTS[command]:
        files.append(answer.with_suffix("." + SECOND_PARTS[command]))
    try:
        given = b"%%\n".join(file.read_bytes() for file in files)
        wanted = answer.read_bytes()
    except OSError as error:
        return f"the example can't be read: {error}"
    words = [program, command, *OPTIONS.get(command, [])]
    if difference := answered(words, given, wanted):
        return difference
    if names_files and (difference := answered([*words, *files], b"", wanted)):
        return f"with the files named: {difference}"
    return None


def answered(words, given, wanted):
    """Returns the fault of the answer to these arguments and this standard input, or None if it is the expected answer."""
    try:
        ended = subprocess.run(words, input=given, capture_output=True, timeout=SECONDS)
    except subprocess.TimeoutExpired:
        return f"no answer within {SECONDS} seconds"
    except OSError as error:
        return f"the program can't be run: {error}"
    printed = ended.stdout + f"status {ended.returncode}\n".encode()
    if printed != wanted:
        return first_difference(wanted, printed)
    if ended.stderr:
        return f"it prints on standard error: {shown(ended.stderr)}"
    return None


def first_difference(wanted, printed):
    """Returns the first line in which two texts differ, in words, or None if they are equal."""
    pairs = zip_longest(wanted.splitlines(keepends=True), printed.splitlines(keepends=True), fillvalue=b"")
    for number, (left, right) in enumerate(pairs, 1):
        if left != right:
            return f"line {number} is {shown(right)}, wanted {shown(left)}"
    return None


def shown(text):
    return repr(text.decode(errors="backslashreplace")) if text else "missing"


if __name__ == "__main__":
    sys.exit(main())
