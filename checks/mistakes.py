#!/usr/bin/env python3
"""Checks that the messages of `sizing ask` about common mistakes name the right lines, and what would be right.

    python3 checks/mistakes.py

For each plan of mistakes/ the answer of `sizing ask --strict` must have a line that begins with the plan's name and the number
of the line below, followed by the words below; the status is that of faults, or of a no. No plan with a mistake is SAFE with
status 0. For the two sound plans the answer is SAFE, with status 0.

The program is crates/sizing/out/sizing, or the one that the environment variable SIZING names.

Exit status: 0 if all of this holds, 1 if not, 2 if there is no program.
"""

import os
import subprocess
import sys
from pathlib import Path

HERE = Path(__file__).resolve().parent
PROGRAM = os.environ.get("SIZING", str(HERE.parent / "crates/sizing/out/sizing"))

# The plan, the exit status, and the lines of the answer: the number of the line that the answer names, and words after it.
MISTAKES = [
    ("unclosed_quote", 2, [(3, "a quote is not closed")]),
    ("slash_comment", 2, [(1, "comments start with #")]),
    ("yes_for_true", 2, [(27, "write true or false")]),
    ("capital_true", 2, [(27, "write true or false")]),
    ("smart_quotes", 2, [(3, "use plain quotes")]),
    ("one_bracket", 2, [(8, "two brackets, as in [[pool]]")]),
    ("plural_table", 2, [(2, "use [[pool]]")]),
    ("class_called_job", 2, [(14, "unknown key job; use [[class]]")]),
    ("name_with_dash", 2, [(9, "db-pool: a name has"), (9, "as db_pool")]),
    ("quoted_number", 2, [(10, "without quotes")]),
    ("size_zero", 2, [(6, "queue is 0, but must be from 1 to 1000000")]),
    ("core_above_max", 2, [(5, "max 4 is less than core 8")]),
    ("misspelled_key", 2, [(12, "unknown key que in [[pool]]; did you mean queue?")]),
    ("java_key", 2, [(4, "use core")]),
    ("spring_key", 2, [(7, "use core_timeout")]),
    ("spring_names", 2, [(4, "use core"), (5, "use max"), (6, "use queue")]),
    ("repeated_key", 2, [(13, "the same entry has the key core in line 10")]),
    ("timeout_in_seconds", 2, [(7, "must be true or false, without quotes")]),
    ("missing_key", 2, [(8, "pool db: queue is missing")]),
    ("unknown_pool", 2, [(21, "unknown pool database; the pools are web, db")]),
    ("unknown_class", 2, [(17, "unknown class querry; did you mean query?")]),
    ("got_twice", 2, [(28, "has already got p")]),
    ("work_without_number", 2, [(22, "work 5")]),
    ("two_spaces", 2, [(22, "one space")]),
    ("get_with_timeout", 2, [(28, "a get has no timeout")]),
    ("execute_for_submit", 2, [(28, "write submit page")]),
    ("body_is_text", 2, [(22, "an array of strings")]),
    ("unquoted_unbounded", 2, [(12, "\"unbounded\" with its quotes")]),
    ("max_value_queue", 2, [(12, "use \"unbounded\"")]),
    ("unlimited_queue", 2, [(12, "did you mean \"unbounded\"?")]),
    ("max_without_a_bound", 2, [(11, "needs queue = \"unbounded\"")]),
    ("count_missing", 2, [(24, "client browser: count is missing")]),
    ("a_bundle_for_a_plan", 2, [(35, "the plan ends here")]),
    ("two_slips", 2, [(26, "count is 0"), (17, "did you mean rows?")]),
    ("utf16", 2, [(1, "UTF-16")]),
    ("repeat_forgotten", 1, [(24, "warning: client browser runs its body once")]),
    ("client_forgotten", 1, [(1, "warning: the plan has no clients")]),
    ("class_nobody_submits", 1, [(36, "warning: class audit is never submitted")]),
    ("pool_without_jobs", 1, [(36, "warning: no job is ever submitted to pool mail")]),
    ("queue_may_grow", 1, [(28, "it may grow until memory is used up")]),
    ("last_thread_waits", 1, [(7, "its last thread may wait for a job of this pool")]),
    ("empty_file", 1, [(1, "warning: the plan has no pools and no clients")]),
]
SOUND = ["sound", "crlf_and_tab"]


def asked(name, *options):
    path = HERE / "mistakes" / f"{name}.toml"
    done = subprocess.run([PROGRAM, "ask", *options, str(path)], capture_output=True, check=False)
    return done.returncode, done.stdout.decode(), str(path)


def slips(name, status, wanted):
    found, text, path = asked(name, "--strict")
    if found != status:
        yield f"{name}: status {found}, and not {status}"
    for line, words in wanted:
        if not any(printed.startswith(f"{path}:{line}:") and words in printed for printed in text.splitlines()):
            yield f"{name}: no line {line} with: {words}\n{text}"
    if wanted and status == 2 and not text.startswith(f"{path}:{wanted[0][0]}:"):
        yield f"{name}: another fault is printed first\n{text}"


def sound(name):
    found, text, _ = asked(name, "--strict")
    if found != 0 or not text.startswith("SAFE\n"):
        yield f"{name}: status {found}\n{text}"


def main():
    if not os.access(PROGRAM, os.X_OK):
        print(f"no program {PROGRAM}")
        return 2
    wrong = [slip for row in MISTAKES for slip in slips(*row)]
    wrong += [slip for name in SOUND for slip in sound(name)]
    for slip in wrong:
        print(slip)
    print(f"{len(MISTAKES)} mistakes and {len(SOUND)} sound plans, {len(wrong)} wrong")
    return 1 if wrong else 0


if __name__ == "__main__":
    sys.exit(main())
