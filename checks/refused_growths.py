#!/usr/bin/env python3
"""Refuses each growth of the memory of `sizing` and each start of a thread in turn, on examples of each command. README.md explains
what that shows.

A run in which the N-th growth or start is refused must end with fault 20 and no answer, or with the right answer and status of the
example. N goes from 1 to the first number that a run does not reach.

The program is crates/sizing/out/sizing, or the one that the environment variable SIZING names.

Exit status: 0 if all runs end so, 1 if one does not, 2 if the check cannot be run.
"""

import os
import shutil
import subprocess
import sys
import tempfile
from collections import Counter
from dataclasses import dataclass
from itertools import count
from pathlib import Path
from typing import Optional

HERE = Path(__file__).resolve().parent
BUILT = HERE.parent / "crates" / "sizing" / "out" / "sizing"
EXAMPLES = HERE.parent / "examples"
# The suffix of the example's file with the text after the line `%%`, by command.
SECOND_PARTS = {"replay": "events", "check": "json", "explain": "json", "run": "json", "conform": "recording"}
# The commands that write a bundle. No example stores it.
BUNDLING = ("certify", "fit --bundle", "refute --bundle")
# The other commands whose answers no example stores: `ask`, and the commands that read a recording.
ASKING = ("ask", "ask --json", "ask --dot", "ask --format html", "ask --format github", "ask --format sarif", "conform", "learn")
# The arguments after the command, by command.
OPTIONS = {"run": ["--rounds", "3"]}
JUDGED = ["two-clients-queue-of-two", "nested-two-workers", "web-and-database-sized", "cross-pools-two-threads"]
REFUTED = ["two-clients", "nested-one-worker", "nested-unused-max"]
FITTED = ["two-clients-queue-of-two", "web-and-database-sized", "two-clients", "there-and-back", "prestarted"]
CASES = [
    *[("replay", name) for name in ("two-clients", "cross-pools", "there-and-back")],
    *[("check", name) for name in [*JUDGED, "front-and-back", "there-and-back"]],
    *[("explain", name) for name in [*JUDGED, "front-and-back", "two-clients", "cross-pools", "there-and-back"]],
    *[("certify", name) for name in [*JUDGED, "front-and-back", "two-clients", "there-and-back"]],
    *[("fit", name) for name in [*FITTED, "web-and-database"]],
    *[("fit --bundle", name) for name in FITTED],
    *[("run", name) for name in [*JUDGED, "there-and-back", "front-and-back"]],
    *[("refute", name) for name in [*REFUTED, "two-clients-queue-of-two"]],
    *[("refute --bundle", name) for name in REFUTED],
    *[("ask", name) for name in ["two-clients", "two-clients-queue-of-two", "nested-one-worker", "fixed-pool-unbounded", "audit-log"]],
    *[("ask --json", name) for name in ["two-clients", "nested-two-workers"]],
    ("ask --dot", "nested-two-workers"),
    *[(f"ask --format {form}", "two-clients") for form in ("html", "github", "sarif")],
    ("conform", "recordings/web-and-database"),
    ("learn", "recordings/web-and-database"),
]
SHARED_OBJECT = "refuse_growth.so"
# The number of consecutive growths that must not be reached before the check of a command ends, if it is not 1. The threads of `run`
# divide its jobs differently each time, so the number of growths varies a little.
UNREACHED = {"run": 5}
SECONDS = 10


class Unable(Exception):
    """The check cannot be run."""


@dataclass(frozen=True)
class Ended:
    """The end of a run. The status is negative if a signal ended the run, and None if the run did not end in time."""

    status: Optional[int]
    printed: bytes
    complained: bytes


OUT_OF_MEMORY = Ended(3, b"", b"fault 20 Memory\n")


def main():
    try:
        program = built()
        with tempfile.TemporaryDirectory() as folder:
            compile_object(Path(folder), "refuse_growth")
            wrong = sum(sweep(Path(folder), program, command, name) for command, name in CASES)
    except Unable as why:
        print(why, file=sys.stderr)
        return 2
    return 1 if wrong else 0


def built():
    """Returns the path of the built program. Raises Unable if there is none."""
    program = Path(os.environ.get("SIZING") or BUILT).resolve()
    if not os.access(program, os.X_OK) or not program.is_file():
        raise Unable(f"there is no program at {program}: run `make program` at the top of the repository")
    return program


def compile_object(folder, name):
    """Compiles a C file of this folder into another folder, and returns the path of the shared object."""
    if shutil.which("gcc") is None:
        raise Unable("gcc is not installed")
    path = folder / f"{name}.so"
    if subprocess.run(["gcc", "-O2", "-shared", "-fPIC", "-o", path, HERE / f"{name}.c"]).returncode != 0:
        raise Unable(f"gcc cannot compile {name}.c")
    return path


def sweep(folder, program, command, name):
    """Refuses each growth of a command on an example in turn, and prints the results. Returns the number of wrong ends."""
    given = given_to(command, name)
    if command in BUNDLING:
        right = bundle_end(program, command, given)
    else:
        right = asked_end(program, command, given) if command in ASKING else right_end(command, name)
    title = f"{command} {name}"
    ended, _ = run(folder, program, command, given, 0)
    if ended != right:
        raise Unable(f"{title}: with no growth refused, {shown(ended)}")
    calls, ends, unreached = Counter(), Counter(), 0
    for number in count(1):
        ended, call = run(folder, program, command, given, number)
        calls.update([call] if call else [])
        right_ends = {OUT_OF_MEMORY: "fault 20", right: "the right answer"} if call else {right: "with nothing refused"}
        end = right_ends.get(ended, "wrong")
        ends[end] += 1
        if end == "wrong":
            print(f"{title}, growth {number} ({call or 'not reached'}): {shown(ended)}", flush=True)
        unreached += call is None
        if unreached == UNREACHED.get(command, 1):
            break
    if not calls:
        raise Unable(f"{title}: the program makes no call that could be refused")
    each_call = ", ".join(f"{call} {times}" for call, times in sorted(calls.items()))
    each_end = ", ".join(f"{end} {ends[end]}" for end in ("fault 20", "the right answer", "wrong"))
    print(f"{title}: {sum(calls.values())} growths refused ({each_call}): {each_end}", flush=True)
    return ends["wrong"]


def given_to(command, name):
    """Returns the input of a command on an example."""
    if command == "learn":
        return contents(f"{name}.recording")
    plan = contents(f"{name}.toml")
    return plan + b"%%\n" + contents(f"{name}.{SECOND_PARTS[command]}") if command in SECOND_PARTS else plan


def right_end(command, name):
    """Returns the expected end of a command on an example, from the file with the answer. The last line of the file has the status.

    An example to which `check` says yes has no file for `explain`, since no condition fails.
    """
    if command == "explain" and not (EXAMPLES / f"{name}.explain").exists():
        if not contents(f"{name}.check").startswith(b"yes\n"):
            raise Unable(f"the example {name} has no answer of `explain`")
        return Ended(0, b"failing 0\n", b"")
    answer, _, status = contents(f"{name}.{command}").rpartition(b"status ")
    try:
        return Ended(int(status), answer, b"")
    except ValueError:
        raise Unable(f"the last line of {name}.{command} has no status")


def bundle_end(program, command, plan):
    """Returns the end of a command that writes a bundle, if nothing is refused. `check` must say yes to a bundle of `certify` or `fit`,
    but `certify` may find no certificate. `replay` of a bundle of `refute` must end in a refused submit or in jobs that are stuck. The
    plan of the bundle must be the given plan, except for `fit`."""
    done = subprocess.run(words_of(program, command), input=plan, capture_output=True, timeout=SECONDS, check=False)
    if command == "refute --bundle":
        return witness_end(program, plan, done)
    if command == "certify" and done.stdout == b"no certificate found\n":
        return Ended(1, done.stdout, b"")
    check = subprocess.run([program, "check"], input=done.stdout, capture_output=True, timeout=SECONDS, check=False)
    is_of_plan = command != "certify" or done.stdout.startswith(plan)
    if not is_of_plan or not check.stdout.startswith(b"yes\n"):
        raise Unable(f"{command} answers {done.stdout!r}")
    return Ended(0, done.stdout, b"")


def witness_end(program, plan, done):
    """Returns the end of `refute --bundle`. Raises Unable if it is not right: see bundle_end."""
    replay = subprocess.run([program, "replay"], input=done.stdout, capture_output=True, timeout=SECONDS, check=False)
    last = replay.stdout.splitlines()[-2:-1]
    shows = any(b": refused by " in line or line.endswith(b": stuck yes") for line in last)
    if done.returncode != 0 or not done.stdout.startswith(plan) or replay.returncode != 1 or not shows:
        raise Unable(f"refute --bundle answers {done.stdout!r}, and replay to that {replay.stdout!r}")
    return Ended(0, done.stdout, b"")


def asked_end(program, command, plan):
    """Returns the end of a command of ASKING if nothing is refused. Raises Unable if the command does not answer yes or no."""
    done = subprocess.run(words_of(program, command), input=plan, capture_output=True, timeout=SECONDS, check=False)
    if done.returncode not in (0, 1) or not done.stdout or done.stderr:
        raise Unable(f"{command} answers {done.stdout!r}")
    return Ended(done.returncode, done.stdout, b"")


def words_of(program, command):
    return [program, *command.split(), *OPTIONS.get(command, [])]


def contents(name):
    try:
        return (EXAMPLES / name).read_bytes()
    except OSError as error:
        raise Unable(f"the example cannot be read: {error}")


def run(folder, program, command, given, number):
    """Returns the end of a run in which the growth with this number is refused, and the name of the refused call, or None if the run
    does not reach this growth."""
    report = folder / "report"
    report.write_bytes(b"")
    settings = {"LD_PRELOAD": f"./{SHARED_OBJECT}", "REFUSE_AT": str(number), "REFUSE_REPORT": str(report)}
    try:
        done = subprocess.run(
            words_of(program, command), input=given, capture_output=True, cwd=folder, env=settings, timeout=SECONDS,
        )
        ended = Ended(done.returncode, done.stdout, done.stderr)
    except subprocess.TimeoutExpired as late:
        ended = Ended(None, late.stdout or b"", late.stderr or b"")
    except OSError as error:
        raise Unable(f"the program cannot be run: {error}")
    lines = report.read_text().split()
    if not lines:
        raise Unable(f"{SHARED_OBJECT} is not loaded: is the program statically linked? {command}: {shown(ended)}")
    return ended, lines[1] if len(lines) > 1 else None


def shown(ended):
    if ended.status is None:
        how = f"it does not end within {SECONDS} seconds"
    elif ended.status < 0:
        how = f"signal {-ended.status} ends it"
    else:
        how = f"it ends with status {ended.status}"
    return f"{how}, standard output {ended.printed!r}, standard error {ended.complained!r}"


if __name__ == "__main__":
    sys.exit(main())
