#!/usr/bin/env python3
"""usage: recordings.py [KIB]

Compares `sizing conform` and `sizing learn`, on a recording of nearly KIB KiB (8 to 65536; default: 8192), with a plain C program
that only splits the same bytes into lines and words and counts them: the peak memory, the time and, if valgrind is installed, the
counted instructions. README.md describes the measurements and the bars.

The program is crates/sizing/out/sizing, or the one that the environment variable SIZING names.

Exit status: 0 if all answers are right and no bar is exceeded, 1 if not, 2 if the benchmark cannot be run.
"""

import sys

sys.dont_write_bytecode = True

from timing import Bars, Program, Table, built, compiled, costs
from timing import has_callgrind, in_folder, instructions, tell_if_uncounted

RUNS = 3
KIB = 8192
# The maximum ratio of the instructions of `sizing` to those of the C program.
MOST_RATIO = 6
# The maximum memory for the actors that are live at the same time, in MiB, in addition to the text.
MOST_MEBIBYTES_BESIDE = 2
VISITORS = 20

HEAD = """recording 1
pool web core 20 max 20 queue array 20 timeout no prestarted 0 handler abort
pool data core 4 max 4 queue array 20 timeout no prestarted 0 handler abort
"""
PLAN = f"""[[class]]
body = ["submit query as s0", "get s0"]
name = "request"
pool = "web"

[[class]]
body = []
name = "query"
pool = "data"

[[client]]
body = ["submit request as s0", "get s0"]
count = {VISITORS}
name = "visitor"
repeat = true

[[pool]]
core = 20
max = 20
name = "web"
queue = 20

[[pool]]
core = 4
max = 4
name = "data"
queue = 20
"""


def turn(first, number):
    """Returns the lines of one round of each visitor, all at the same time. Rounds are numbered from `first`, and jobs from `number`."""
    rounds = range(first, first + VISITORS)
    requests = range(number, number + VISITORS)
    queries = range(number + VISITORS, number + 2 * VISITORS)
    steps = (
        lambda r, j, q: f"round {r} begin visitor",
        lambda r, j, q: f"round {r} submit {j} request web",
        lambda r, j, q: f"job {j} start",
        lambda r, j, q: f"job {j} submit {q} query data",
        lambda r, j, q: f"job {q} start",
        lambda r, j, q: f"job {q} end",
        lambda r, j, q: f"job {j} got {q}",
        lambda r, j, q: f"job {j} end",
        lambda r, j, q: f"round {r} got {j}",
        lambda r, j, q: f"round {r} end",
    )
    return "".join(f"{step(*numbers)}\n" for step in steps for numbers in zip(rounds, requests, queries))


def recording(room):
    """Returns the text of a recording of at most `room` bytes, and the numbers of its rounds and jobs."""
    parts, length, turns = [HEAD], len(HEAD), 0
    while length + len(part := turn(turns * VISITORS, turns * 2 * VISITORS)) + 4 <= room:
        parts.append(part)
        length += len(part)
        turns += 1
    return "".join([*parts, "end\n"]), turns * VISITORS, turns * 2 * VISITORS


def learned(rounds, jobs):
    return f"""# Learned from a recording. Rounds: {rounds}. Jobs: {jobs}.
# Paths, classes, kinds and pools that this run did not use are missing. Each count is the most that were open at once.

{PLAN}"""


def main(words):
    try:
        kib = int(words[0]) if words else KIB
        if len(words) > 1 or not 8 <= kib <= 65536:
            raise ValueError
    except ValueError:
        print("usage: recordings.py [KIB], with 8 to 65536 KiB", file=sys.stderr)
        return 2
    return in_folder(lambda folder: run(folder, kib * 1024))


def run(folder, room):
    sizing, measure = built("sizing"), compiled(folder, "measure")
    count_lines = compiled(folder, "count_lines")
    text, rounds, jobs = recording(room)
    (folder / "recording").write_text(text)
    (folder / "both").write_text(f"{PLAN}%%\n{text}")
    lines = f"lines {text.count(chr(10))}, words {len(text.split())}\n".encode()
    count = Program([count_lines], lines, given="recording")
    conform = Program([sizing, "conform"], b"conforms\n", given="both")
    learn = Program([sizing, "learn"], learned(rounds, jobs).encode(), given="recording")
    bars = Bars()
    table = Table(
        ("command", 10), ("bytes", 9), ("ms", 9), ("count ms", 9), ("ratio", 7), ("M instr", 9), ("count M", 9),
        ("ratio", 7), ("MiB", 7), ("count MiB", 9),
    )
    for name, program in (("conform", conform), ("learn", learn)):
        asked, counted = costs(folder, measure, [program, count], RUNS)
        many = [instructions(folder, it) for it in (program, count)] if has_callgrind() else None
        table.row(
            name,
            len(text),
            f"{asked.milliseconds:.1f}",
            f"{counted.milliseconds:.1f}",
            f"{asked.milliseconds / counted.milliseconds:.1f}",
            *([f"{many[0]:.1f}", f"{many[1]:.1f}", f"{many[0] / many[1]:.2f}"] if many else ["-"] * 3),
            f"{asked.mebibytes:.1f}",
            f"{counted.mebibytes:.1f}",
        )
        if many:
            bars.hold(f"{name}: instructions beside those of the counting", many[0] / many[1], MOST_RATIO)
        bars.hold(f"{name}: MiB beside those of the text", asked.mebibytes - counted.mebibytes, MOST_MEBIBYTES_BESIDE)
    tell_if_uncounted()
    bars.end()


if __name__ == "__main__":
    sys.exit(main(sys.argv[1:]))
