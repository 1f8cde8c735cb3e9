#!/usr/bin/env python3
"""usage: certify.py

Compares the time of `sizing certify` with that of only reading its plan, and its peak memory with that of `sizing check` on the
bundle that it writes. README.md describes the measurements and the bars.

The programs are crates/sizing/out/sizing and bench/plan_reader/out/plan_reader, or those that the environment
variables SIZING and PLAN_READER name.

Exit status: 0 if a certificate is found for each plan and no bar is exceeded, 1 if not, 2 if the benchmark cannot be run.
"""

import subprocess
import sys

sys.dont_write_bytecode = True

from machine import Class, Client, Plan, Pool
from plan_texts import MOST_ACTIONS, MOST_CLASSES, filled, largest
from timing import Bars, Program, Table, Wrong, built, compiled, costs
from timing import instruction_cells, tell_if_uncounted, without_words

RUNS = 10
SIZE = 1024 * 1024
TIME_BAR = 5
MEMORY_BAR = 1.5
MOST_POOLS = 64
CLIENTS = 1000


def main(words):
    return without_words("certify.py", words, lambda folder: Bench(folder).run())


class Bench:
    """The programs, the table, and the bars that are exceeded so far."""

    def __init__(self, folder):
        self.folder = folder
        self.sizing = built("sizing")
        self.reader = built("plan_reader")
        self.measure = compiled(folder, "measure")
        self.bars = Bars()
        self.table = Table(
            ("plan", 22), ("bytes", 9), ("certify ms", 10), ("read_plan", 9), ("ratio", 5), ("bar", 4),
            ("M instr", 8), ("beside", 7), ("ratio", 5), ("MiB", 5), ("check", 5), ("ratio", 5), ("bar", 4),
        )

    def run(self):
        self.measured("2 pools, long bodies", filled(two_pools(SIZE).text(), SIZE), TIME_BAR)
        self.measured("64 pools that lend", pools_that_lend(), None)
        tell_if_uncounted()
        self.bars.end()

    def measured(self, name, text, bar):
        """Prints a row for the plan with this text, and compares its ratios with their bars."""
        (self.folder / "plan").write_text(text)
        bundle = self.certified(name, text)
        (self.folder / "bundle").write_bytes(bundle)
        verdict = self.asked("check", bundle)
        if not verdict.startswith(b"yes\n"):
            raise Wrong(f"{name}: the bundle is refused")
        certify = Program([self.sizing, "certify"], bundle, given="plan")
        reader = Program([self.reader, "plan"], b"ok\n", given="plan")
        check = Program([self.sizing, "check"], verdict, given="bundle")
        first, second, third = costs(self.folder, self.measure, [certify, reader, check], RUNS)
        time, memory = first.milliseconds / second.milliseconds, first.mebibytes / third.mebibytes
        self.table.row(
            name,
            len(text),
            f"{first.milliseconds:.1f}",
            f"{second.milliseconds:.1f}",
            f"{time:.2f}",
            "-" if bar is None else f"{bar:.1f}",
            *instruction_cells(self.folder, [certify, reader]),
            f"{first.mebibytes:.1f}",
            f"{third.mebibytes:.1f}",
            f"{memory:.2f}",
            f"{MEMORY_BAR:.1f}",
        )
        if bar is not None:
            self.bars.hold(f"{name}: ratio of the times", time, bar)
        self.bars.hold(f"{name}: ratio of the peaks", memory, MEMORY_BAR)

    def certified(self, name, text):
        bundle = self.asked("certify", text.encode())
        if not bundle.startswith(text.encode()):
            raise Wrong(f"{name}: {bundle[:100].decode(errors='replace')}")
        return bundle

    def asked(self, command, given):
        return subprocess.run([self.sizing, command], input=given, stdout=subprocess.PIPE, check=False).stdout


def two_pools(size):
    """Returns a plan with 256 classes, whose text has nearly this size. Jobs of `front` submit jobs of `back`, and get each before they
    submit the next."""
    slots = [f"slot_{number:027}" for number in range(MOST_ACTIONS // 2)]
    names = [f"class_{number:026}" for number in range(MOST_CLASSES)]
    inner = names[-1]

    def plan(pairs):
        body = [action for slot in slots[:pairs] for action in (f"submit {inner} as {slot}", f"get {slot}")]
        classes = [Class(name, "front", body) for name in names[:-1]] + [Class(inner, "back", ["work 1"])]
        client = Client("client", CLIENTS, True, [f"submit {names[0]} as {slots[0]}", f"get {slots[0]}"])
        return Plan([Pool("front", 4, 4, CLIENTS), Pool("back", 2, 2, 4)], classes, [client])

    return largest(plan, len(slots), size)


def pools_that_lend():
    """Returns the text of a plan with a chain of pools. Each job submits a job to the next pool and gets it. The next pool's queue has
    one place for each worker of the pool."""
    pools = [Pool(f"p{number}", 2, 2, 2 if number else CLIENTS) for number in range(MOST_POOLS)]
    classes = [
        Class(f"a{number}", pools[number].name, [f"submit a{number + 1} as x", "get x"] if number + 1 < MOST_POOLS else ["work 1"])
        for number in range(MOST_POOLS)
    ]
    return Plan(pools, classes, [Client("client", CLIENTS, True, ["submit a0 as x", "get x"])]).text()


if __name__ == "__main__":
    sys.exit(main(sys.argv[1:]))
