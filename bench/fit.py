#!/usr/bin/env python3
"""usage: fit.py

Compares the time of `sizing fit`, without and with `--bundle`, with that of `sizing certify` on the same plan with the sizes that
`fit` finds. README.md describes the measurements and the bars.

The program is crates/sizing/out/sizing, or the one that the environment variable SIZING names.

Exit status: 0 if sizes are found for each plan and no bar is exceeded, 1 if not, 2 if the benchmark cannot be run.
"""

import re
import subprocess
import sys
from dataclasses import replace

sys.dont_write_bytecode = True

from certify import CLIENTS, SIZE, two_pools
from machine import Class, Client, Plan, Pool
from plan_texts import filled
from timing import Bars, Program, Table, Wrong, built, compiled, costs
from timing import instruction_cells, tell_if_uncounted, without_words

RUNS = 10
TWO_POOLS_BAR = 5
POOLS = 20
CALLS_BAR = 15
SIZES = re.compile(r"pool \w+: core (\d+)[^,]*, max (\d+)[^,]*, queue (\d+).*")


def main(words):
    return without_words("fit.py", words, lambda folder: Bench(folder).run())


class Bench:
    """The program, the table, and the bars that are exceeded so far."""

    def __init__(self, folder):
        self.folder = folder
        self.sizing = built("sizing")
        self.measure = compiled(folder, "measure")
        self.bars = Bars()
        self.table = Table(
            ("plan", 31), ("bytes", 9), ("changes", 7), ("fit ms", 7), ("bundle", 7), ("certify", 7), ("ratio", 5),
            ("bundle", 6), ("bar", 4), ("M instr", 8), ("certify", 7), ("ratio", 5), ("MiB", 5), ("certify", 7),
        )

    def run(self):
        self.measured("2 pools, long bodies", with_queues_of_one(two_pools(SIZE)), SIZE, TWO_POOLS_BAR)
        self.measured("20 pools, each calls all others", calls_of_all(POOLS), 0, CALLS_BAR)
        self.measured("20 pools, calls go round twice", calls_round(POOLS, 2), 0, CALLS_BAR)
        tell_if_uncounted()
        self.bars.end()

    def measured(self, name, plan, size, bar):
        """Prints a row for the plan, whose text is padded to this size, and compares the row's ratios with the bar."""
        fit = self.program(name, text_of(plan, size), "plan", 1, "fit")
        bundle = self.program(name, text_of(plan, size), "plan", 0, "fit", "--bundle")
        certify = self.program(name, text_of(sized(plan, fit.answer), size), "sized", 0, "certify")
        for program in (bundle, certify):
            self.accepted(name, program.answer)
        first, second, third = costs(self.folder, self.measure, [fit, bundle, certify], RUNS)
        ratios = [cost.milliseconds / third.milliseconds for cost in (first, second)]
        self.table.row(
            name,
            len(text_of(plan, size)),
            fit.answer.split()[-1].decode(),
            *[f"{cost.milliseconds:.1f}" for cost in (first, second, third)],
            *[f"{ratio:.2f}" for ratio in ratios],
            f"{bar:.1f}",
            *instruction_cells(self.folder, [fit, certify]),
            f"{first.mebibytes:.1f}",
            f"{third.mebibytes:.1f}",
        )
        self.bars.hold(f"{name}: the greater ratio", max(ratios), bar)

    def program(self, name, text, given, status, *words):
        """Writes a text into the folder as the input of the program with these arguments. Returns the program with its answer."""
        (self.folder / given).write_text(text)
        done = subprocess.run([self.sizing, *words], input=text.encode(), stdout=subprocess.PIPE, check=False)
        if done.returncode != status:
            raise Wrong(f"{name}: {' '.join(words)} answers {done.stdout[:100].decode(errors='replace')}")
        return Program([self.sizing, *words], done.stdout, status, given)

    def accepted(self, name, bundle):
        check = subprocess.run([self.sizing, "check"], input=bundle, stdout=subprocess.PIPE, check=False)
        if not check.stdout.startswith(b"yes\n"):
            raise Wrong(f"{name}: a bundle is refused")


def text_of(plan, size):
    """Returns the text of a plan, padded to this size with a comment if it is shorter."""
    text = plan.text()
    return filled(text, max(size, len(text)))


def sized(plan, answer):
    """Returns the plan with the sizes that an answer of `fit` lists."""
    found = [map(int, numbers) for numbers in SIZES.findall(answer.decode())]
    return replace(plan, pools=[Pool(pool.name, *numbers) for pool, numbers in zip(plan.pools, found, strict=True)])


def with_queues_of_one(plan):
    return replace(plan, pools=[Pool(pool.name, pool.core, pool.max, 1) for pool in plan.pools])


def calls_of_all(count):
    """Returns a plan in which each pool has a class whose jobs submit one job to each other pool and then get them."""
    numbers = range(count)
    leaves = [Class(f"leaf_{number}", f"p{number}", ["work 1"]) for number in numbers]
    callers, clients = [], []
    for number in numbers:
        others = [other for other in numbers if other != number]
        body = [f"submit leaf_{other} as s{other}" for other in others] + [f"get s{other}" for other in others]
        callers.append(Class(f"caller_{number}", f"p{number}", body))
        clients.append(Client(f"c{number}", CLIENTS, True, [f"submit caller_{number} as x", "get x"]))
    return Plan(smallest_pools(count), callers + leaves, clients)


def calls_round(count, times):
    """Returns a plan with a chain of jobs, each of which submits the next job and gets it. The chain passes through all pools `times`
    times."""
    last = count * times - 1
    classes = [
        Class(f"a{number}", f"p{number % count}", [f"submit a{number + 1} as x", "get x"] if number < last else ["work 1"])
        for number in range(last + 1)
    ]
    return Plan(smallest_pools(count), classes, [Client("c", 10, True, ["submit a0 as x", "get x"])])


def smallest_pools(count):
    return [Pool(f"p{number}", 1, 1, 1) for number in range(count)]


if __name__ == "__main__":
    sys.exit(main(sys.argv[1:]))
