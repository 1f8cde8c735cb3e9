#!/usr/bin/env python3
"""usage: plain.py

Compares `sizing replay`, `check`, `explain` and `certify` with a plain Rust program that gives the same answers, in one table:
the peak memory, the time and, if valgrind is installed, the counted instructions. README.md describes the comparison.

The program is crates/sizing/out/sizing, or the one that the environment variable SIZING names. The plain program is that of
rust/, which is built first. If it cannot be built, prints a line that says so, and measures nothing.

Exit status: 0 if all answers are the same and no bar is exceeded, 1 if not, 2 if the benchmark cannot be run.
"""

import subprocess
import sys
from dataclasses import dataclass

sys.dont_write_bytecode = True

from bundles import every_condition_fails, full_bodies, long_names, long_rows, short_rows
from certificates import checked, explained
from certify import pools_that_lend, two_pools
from inputs import nested_jobs, one_looping_client
from peer import built_peer, compared_with_examples, example_plans
from plan_texts import filled
from timing import Bars, Program, Table, Wrong, built, compiled, costs
from timing import has_callgrind, instructions, tell_if_uncounted, without_words

# The maximum ratios of `sizing` to the plain program, on each input.
MOST_INSTRUCTIONS = 0.9
MOST_MEMORY = 1.2
RUNS = 5
SIZE = 1024 * 1024


@dataclass
class Input:
    """The input of a command, with the right answer and its exit status. The answer is None if only the programs can compute it."""

    name: str
    command: str
    given: bytes
    answer: bytes = None
    status: int = 0


def main(words):
    return without_words("plain.py", words, lambda folder: Bench(folder).run())


class Bench:
    """The programs, the table, and the bars that are exceeded so far."""

    def __init__(self, folder):
        self.folder = folder
        self.sizing = built("sizing")
        self.plain = built_peer()
        self.measure = compiled(folder, "measure")
        self.is_counted = has_callgrind()
        self.bars = Bars()

    def run(self):
        if self.plain is None:
            return
        print(f"{compared_with_examples(self.plain)} examples are answered right by the plain program too", end=", ")
        print(f"{self.compared_on_certify()} plans of examples get the same from certify by both", flush=True)
        self.table = Table(
            ("input", 46), ("bytes", 9), ("M instr", 8), ("plain", 7), ("ratio", 5), ("bar", 4),
            ("MiB", 5), ("plain", 5), ("ratio", 5), ("bar", 4), ("ms", 6), ("plain", 6), ("ratio", 5),
        )
        for make in INPUTS:
            self.measured(make())
        tell_if_uncounted()
        self.bars.end()

    def compared_on_certify(self):
        """Compares the answers of `certify` to the plans of the examples, and returns their number. Raises Wrong if an answer differs."""
        plans = example_plans()
        for name, text in plans.items():
            self.answered(Input(f"certify of {name}.toml", "certify", text))
        return len(plans)

    def answered(self, what):
        """Returns the answer and the exit status of `sizing` for an input. Raises Wrong if those of the plain program differ."""
        answers = []
        for program in (self.sizing, self.plain):
            ended = subprocess.run([program, what.command], input=what.given, stdout=subprocess.PIPE)
            answers.append((ended.stdout, ended.returncode))
        if answers[0] != answers[1]:
            raise Wrong(f"{what.name}: the programs give different answers")
        return answers[0]

    def measured(self, what):
        """Prints the row of an input, and compares its ratios with their bars."""
        if what.answer is None:
            what.answer, what.status = self.answered(what)
        (self.folder / "input").write_bytes(what.given)
        programs = [Program([path, what.command], what.answer, what.status) for path in (self.sizing, self.plain)]
        first, second = costs(self.folder, self.measure, programs, RUNS)
        counted = [instructions(self.folder, program) if self.is_counted else None for program in programs]
        self.table.row(
            what.name,
            len(what.given),
            *self.cells(what, "instructions", counted, MOST_INSTRUCTIONS),
            *self.cells(what, "peak memory", [first.mebibytes, second.mebibytes], MOST_MEMORY),
            *[f"{number:.2f}" for number in with_ratio([first.milliseconds, second.milliseconds])],
        )

    def cells(self, what, of_what, pair, bar):
        """Returns the cells of two numbers, their ratio and its bar, and compares the ratio with the bar."""
        if None in pair:
            return ["-"] * 4
        *numbers, ratio = with_ratio(pair)
        self.bars.hold(f"{what.name}: ratio of {of_what}", ratio, bar)
        return [*[f"{number:.1f}" for number in numbers], f"{ratio:.2f}", f"{bar:.1f}"]


def with_ratio(pair):
    return [*pair, pair[0] / pair[1]]


def replayed(name, script):
    return Input(f"{name}, {len(script.events):,} events", "replay", script.input(), script.answer(), script.status())


def judged(name, command, bundle, answered):
    return Input(name, command, bundle.input(), *answered(bundle.certificate))


# Each function creates its input when it is called.
INPUTS = [
    lambda: replayed("replay, many clients", nested_jobs(SIZE)),
    lambda: replayed("replay, one client", one_looping_client(SIZE)),
    lambda: judged("check, plan and certificate of 1 MiB, names", "check", long_names(SIZE), checked),
    lambda: judged("check, plan and certificate of 1 MiB, bodies", "check", full_bodies(SIZE), checked),
    lambda: judged("check, 64 pools, 1 MiB of long rows", "check", long_rows(SIZE), checked),
    lambda: judged("check, 64 pools, 1 MiB of short rows", "check", short_rows(SIZE), checked),
    lambda: judged("explain, every condition fails", "explain", every_condition_fails(SIZE), explained),
    lambda: Input("certify, plan of 1 MiB", "certify", filled(two_pools(SIZE).text(), SIZE).encode()),
    lambda: Input("certify, 64 pools that lend", "certify", pools_that_lend().encode()),
]


if __name__ == "__main__":
    sys.exit(main(sys.argv[1:]))
