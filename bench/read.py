#!/usr/bin/env python3
"""usage: read.py [KIB..]

Compares the time of reading a plan with that of reading only its TOML, on texts of these sizes in KiB (64 to 1024; default: 64, 256
and 1024). README.md describes the measurement.

The program is bench/plan_reader/out/plan_reader, or the one that the environment variable PLAN_READER names.

Exit status: 0 if all answers are right and no ratio at 1024 KiB exceeds 2, 1 if not, 2 if the benchmark cannot be run.
"""

import sys

sys.dont_write_bytecode = True

from plan_texts import all_texts
from timing import Program, Table, Wrong, built, compiled, costs, in_folder

RUNS = 20
LEAST_KIB = 64
MOST_KIB = 1024
USUAL_KIB = [64, 256, 1024]
MOST_RATIO = 2


def main(words):
    try:
        sizes = [int(word) for word in words] or USUAL_KIB
        if not all(LEAST_KIB <= size <= MOST_KIB for size in sizes):
            raise ValueError
    except ValueError:
        print(f"usage: read.py [KIB..], each with {LEAST_KIB} to {MOST_KIB} KiB", file=sys.stderr)
        return 2
    return in_folder(lambda folder: bench(folder, sizes))


def bench(folder, sizes):
    program = built("plan_reader")
    measure = compiled(folder, "measure")
    table = Table(
        ("text", 18), ("bytes", 9), ("plan ms", 9), ("toml ms", 9), ("ratio", 6), ("plan MiB", 9), ("toml MiB", 9),
    )
    greatest = 0
    for size in sizes:
        for text in all_texts(size * 1024):
            (folder / "input").write_text(text.text)
            programs = [Program([program, "plan"], f"{text.printed}\n".encode()), Program([program, "toml"], b"ok\n")]
            plan, toml = costs(folder, measure, programs, RUNS)
            ratio = plan.milliseconds / toml.milliseconds
            if size == MOST_KIB:
                greatest = max(greatest, ratio)
            table.row(
                text.name,
                len(text.text),
                f"{plan.milliseconds:.2f}",
                f"{toml.milliseconds:.2f}",
                f"{ratio:.2f}",
                f"{plan.mebibytes:.1f}",
                f"{toml.mebibytes:.1f}",
            )
    if greatest > MOST_RATIO:
        raise Wrong(f"the greatest ratio at {MOST_KIB} KiB is {greatest:.2f}, above the bar {MOST_RATIO}")


if __name__ == "__main__":
    sys.exit(main(sys.argv[1:]))
