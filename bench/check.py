#!/usr/bin/env python3
"""usage: check.py

Compares the time of `sizing check` and `sizing explain` with that of only reading the same two texts, a plan's TOML and a
certificate's JSON. If valgrind is installed, counts the instructions of both. README.md describes the measurements and the bars.

The programs are crates/sizing/out/sizing and bench/plan_reader/out/plan_reader, or those that the environment
variables SIZING and PLAN_READER name.

Exit status: 0 if all answers are right and no bar is exceeded, 1 if not, 2 if the benchmark cannot be run.
"""

import sys
from dataclasses import replace

sys.dont_write_bytecode = True

from bundles import FEW_CLIENTS, MOST_SIZE, every_condition_fails, full_bodies, long_names, long_rows, short_rows
from certificates import checked, explained
from timing import Bars, Program, Table, built, compiled, costs, instruction_cells
from timing import run, tell_if_uncounted, without_words

RUNS = 40
SIZE = 1024 * 1024
CHECK_BAR = 1.6
EXPLAIN_BAR = 3
COUNTS_BAR = 1.1


def main(words):
    return without_words("check.py", words, lambda folder: Bench(folder).run())


class Bench:
    """The programs, the table, and the bars that are exceeded so far."""

    def __init__(self, folder):
        self.folder = folder
        self.sizing = built("sizing")
        self.reader = built("plan_reader")
        self.measure = compiled(folder, "measure")
        self.bars = Bars()
        self.table = Table(
            ("sizing", 29), ("beside", 20), ("bytes", 9), ("ms", 7), ("beside", 7), ("ratio", 5), ("bar", 4),
            ("M instr", 8), ("beside", 7), ("ratio", 5), ("MiB", 5), ("beside", 6),
        )

    def run(self):
        for make in (long_names, full_bodies, long_rows, short_rows):
            self.check(make(SIZE))
        self.explain(every_condition_fails(SIZE))
        self.counts(long_rows(SIZE, MOST_SIZE), long_rows(SIZE, FEW_CLIENTS))
        tell_if_uncounted()
        self.bars.end()

    def check(self, bundle):
        """Compares `check` with only reading its texts. Returns the peak memory of `check` in MiB."""
        check = Program([self.sizing, "check"], *checked(bundle.certificate))
        return self.beside_texts(bundle, check, CHECK_BAR)

    def explain(self, bundle):
        """Compares `explain` with only reading its texts, and its peak memory with a bar that depends on its answer and on `check`."""
        of_check = self.check(bundle)
        explain = Program([self.sizing, "explain"], *explained(bundle.certificate))
        (self.folder / explain.given).write_bytes(bundle.input())
        run(self.folder, self.measure, explain)
        peak = self.beside_texts(bundle, replace(explain, is_compared=False), EXPLAIN_BAR)
        lines, size = explain.answer.count(b"\n"), len(explain.answer) / 2**20
        most = 2 * size + of_check
        print(f"  its answer: {lines} lines, {size:.1f} MiB; its peak: {peak:.1f} MiB, and {most:.1f} MiB at most")
        self.bars.hold(f"explain, {bundle.name}: MiB", peak, most)

    def counts(self, many, few):
        """Compares `check` on a plan with many clients with `check` on a plan with few."""
        programs = []
        for name, bundle in (("many", many), ("few", few)):
            (self.folder / name).write_bytes(bundle.input())
            programs.append(Program([self.sizing, "check"], *checked(bundle.certificate), given=name))
        self.compare(f"check, {MOST_SIZE:,} clients", f"{FEW_CLIENTS} clients", programs, COUNTS_BAR)

    def beside_texts(self, bundle, program, bar):
        (self.folder / program.given).write_bytes(bundle.input())
        texts = Program([self.reader, "texts"], b"ok\n")
        return self.compare(f"{program.words[1]}, {bundle.name}", "the texts alone", [program, texts], bar)

    def compare(self, name, other, programs, bar):
        """Prints a row for two programs, and compares the ratio of their times with the bar. Returns the first one's peak memory in MiB."""
        first, second = costs(self.folder, self.measure, programs, RUNS)
        ratio = first.milliseconds / second.milliseconds
        self.table.row(
            name,
            other,
            (self.folder / programs[0].given).stat().st_size,
            f"{first.milliseconds:.2f}",
            f"{second.milliseconds:.2f}",
            f"{ratio:.2f}",
            f"{bar:.1f}",
            *instruction_cells(self.folder, programs),
            f"{first.mebibytes:.1f}",
            f"{second.mebibytes:.1f}",
        )
        self.bars.hold(f"{name}: ratio", ratio, bar)
        return first.mebibytes


if __name__ == "__main__":
    sys.exit(main(sys.argv[1:]))
