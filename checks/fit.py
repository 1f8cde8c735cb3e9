#!/usr/bin/env python3
"""Compares the answers of `sizing fit` with the plan, with the program's own `check` and `certify`, and with all cheaper sizes.

    python3 checks/fit.py [PLANS [SMALL_PLANS [SEED]]]     # by default 300 plans, 50 small ones and seed 1

For each plan of examples/, for random plans, and for larger ones with up to as many pools as a plan may have:

- If no sizes help, `fit` names the reason: a class of a cycle of submits, a submit that is repeated forever and never got, or a pool
  whose core threads may time out, and whose last thread may wait for a job of the pool. A submit to a pool that may reject jobs or has
  an unbounded queue is no such submit. For every other plan `fit` finds sizes.
- `check` says yes to the output of `fit --bundle`. The plan in it differs from the given plan only in sizes, none of which is
  smaller. The queue of a pool that may reject jobs is the given one, and an unbounded queue stays so. The lines of `fit` list these
  sizes, with the given size where it differs, and no maximum beside an unbounded queue, where it is core, unless core threads may time
  out. Of a pool whose core threads may time out, only the queue changes.
- With the same certificate, `check` says no if a core or queue that changed is smaller by one. A max that changed equals the core.
- If `certify` finds a certificate for the plan, `fit` changes nothing. For the sizes of `fit`, `certify` finds a certificate, and a
  second `fit` changes nothing.
- `fit` reports sizes above their limit only if the plan's steady certificate needs such sizes, or has a weight above its limit, or
  if a repeated submit to a pool that may reject jobs or has an unbounded queue is never got, or if no client causes a job that has a get
  in a pool whose core threads may time out.

In a third of the random plans, pools may reject jobs. In half of them, and in a third of the small ones, queues may be unbounded. In two
fifths of both, core threads of pools may time out.

For small plans (one or two pools, one client of each client kind) whose sizes of `fit` are at most 6, the check runs `certify` with
all sizes that grow less in total. If `certify` finds a certificate for some of them, the check prints that. This is not a fault.

The program is crates/sizing/out/sizing, or the one that the environment variable SIZING names.

Exit status: 0 if all of this holds, 1 if not, or if fewer small plans were compared than requested, 2 if there is no program.
"""

import os
import random
import sys
from collections import Counter
from concurrent.futures import ThreadPoolExecutor
from math import comb
from pathlib import Path

sys.dont_write_bytecode = True

from found_certs import Class, Client, Plan, Pool, kinds_of, plan_by_chance, text
from found_sizes import cheaper_sizes, growth, small_plan
from no_sizes import NOTHING_FOUND, causes, is_unsteady
from read_plans import read_plan
from refused_growths import Unable, built
from small_plans import NO_MAXIMUM, run, text_of
from steady import is_too_large

EXAMPLES = Path(__file__).resolve().parent.parent / "examples"
MOST_SMALL_SIZE = 6
# The maximum number of smaller sizes to try for a small plan. Plans with more are skipped, so more plans are generated than requested.
MOST_CHEAPER = 3000
DRAWN_FOR_ONE = 3
# The number of random plans for each larger plan, and the minimum and maximum number of pools of a larger plan.
PLANS_FOR_LARGER = 10
FEWEST_POOLS, MOST_POOLS = 8, 64


def main():
    words = [int(word) for word in sys.argv[1:]]
    count, small_count, seed = (words + [300, 50, 1][len(words):])[:3]
    try:
        program = built()
    except Unable as why:
        print(why, file=sys.stderr)
        return 2
    os.nice(10)
    chance = random.Random(seed)
    given = [path.read_text() for path in sorted(EXAMPLES.glob("*.toml"))]
    given += [text(plan_by_chance(chance, *kinds_of(number))) for number in range(count)]
    larger = [text(larger_plan(chance)) for _ in range(count // PLANS_FOR_LARGER)]
    small = [small_plan(chance, unbounded=number % 3 == 2, timed=number % 5 > 2) for number in range(DRAWN_FOR_ONE * small_count)]
    with ThreadPoolExecutor(len(os.sched_getaffinity(0))) as threads:
        fits = list(threads.map(lambda plan: Fit(program, plan), given))
        of_larger = list(threads.map(lambda plan: Fit(program, plan), larger))
        of_small = list(threads.map(lambda plan: Fit(program, text(plan)), small))
        compared = [pair for pair in zip(small, of_small) if is_comparable(*pair)][:small_count]
        savings = list(threads.map(lambda pair: saving(program, *pair), compared))
    wrong = report("examples and plans", fits) + report("larger plans", of_larger) + report("small plans", of_small)
    dearer = [saved for saved, _ in savings if saved]
    print(f"{len(compared)} small plans compared with {sum(tries for _, tries in savings)} cheaper sizes: "
          f"for {len(dearer)} smaller sizes have a certificate, by {sum(dearer)} in total")
    if len(compared) < small_count:
        print(f"only {len(compared)} small plans could be compared, but {small_count} were requested")
        return 1
    return 1 if wrong else 0


def report(name, fits):
    """Prints the counts for these plans, and each plan with a wrong answer. Returns the number of wrong answers."""
    wrong = sum(map(Fit.is_reported, fits))
    number = sum((fit.count for fit in fits), Counter())
    print(f"{len(fits)} {name}, {wrong} wrong answers: {number['certified']} have a certificate, {number['sized']} get other "
          f"sizes, for {number['helpless']} no sizes help, {number['too large']} need too large sizes; {number['grown']} "
          "cores and queues grow")
    return wrong


class Fit:
    """The answer of `fit` to a plan, with counts of its kind, and the fault of the answer."""

    def __init__(self, program, given):
        self.program, self.given = program, given
        self.plan = read_plan(given)
        self.status, self.printed = run(program, "fit", given)
        self.bundle_status, self.bundle = run(program, "fit", given, "--bundle")
        self.sizes, self.count = [], Counter()
        self.fault = self.judged()

    def judged(self):
        """Returns the fault of the answer, which is empty if the answer is right."""
        wanted = causes(self.plan)
        if wanted:
            self.count["helpless"] += 1
            return self.fault_of_cause(wanted)
        if self.printed.startswith(NOTHING_FOUND):
            self.count["too large"] += 1
            is_possible = is_too_large(self.plan) or is_unsteady(self.plan)
            return "" if ": sizes above " in self.printed and is_possible else "the sizes are not too large"
        is_certified = run(self.program, "certify", self.given)[0] == 0
        self.count["certified" if is_certified else "sized"] += 1
        return self.fault_of_sizes(is_certified)

    def fault_of_cause(self, wanted):
        head, _, cause = self.printed.partition("\n")
        if self.status != 1 or head != NOTHING_FOUND or cause.removesuffix("\n") not in wanted:
            return f"expected one of {sorted(wanted)}"
        return "" if (self.bundle_status, self.bundle) == (1, self.printed) else f"the answer with --bundle differs:\n{self.bundle}"

    def fault_of_sizes(self, is_certified):
        if self.bundle_status != 0:
            return f"no bundle is written, but\n{self.bundle}"
        fitted_text, _, cert = self.bundle.rpartition("%%\n")
        fitted = read_plan(fitted_text)
        if without_sizes(fitted) != without_sizes(self.plan):
            return f"the bundle has another plan:\n{fitted_text}"
        self.sizes = [sizes_of(pool) for pool in fitted.pools]
        lines, changes = wanted_lines(self.plan, fitted)
        if (self.status, self.printed) != (int(changes > 0), lines):
            return f"the bundle has these sizes:\n{lines}"
        if is_certified and changes:
            return "a plan is changed that has a certificate"
        if not run(self.program, "check", self.bundle)[1].startswith("yes\n"):
            return "check does not say yes"
        if run(self.program, "certify", fitted_text)[0] != 0:
            return "certify finds no certificate at these sizes"
        if run(self.program, "fit", fitted_text)[0] != 0:
            return "fit changes these sizes again"
        return self.fault_of_less(fitted, cert)

    def fault_of_less(self, fitted, cert):
        """Returns a text that reports a size that fell, a changed queue of a pool that may reject jobs or is unbounded, a changed core or
        max of a pool whose core threads may time out, a max that rose above its core, or a changed core or queue that could be smaller; an
        empty text if there is none."""
        for number, (now, found) in enumerate(zip(self.plan.pools, fitted.pools)):
            if any(new < old for new, old in zip(sizes_of(found), sizes_of(now))):
                return f"a size of {now.name} falls"
            if (now.may_reject or now.unbounded) and found.queue != now.queue:
                return f"the queue of {now.name} changes, which may reject jobs or is unbounded"
            if now.core_timeout and (found.core, found.max) != (now.core, now.max):
                return f"the core or the max of {now.name} changes, whose core threads may time out"
            if found.max > now.max and found.max != found.core:
                return f"the max of {now.name} rises further than its core"
            for less in lessened(now, found):
                self.count["grown"] += 1
                pools = [*fitted.pools[:number], less, *fitted.pools[number + 1:]]
                status, verdict = run(self.program, "check", f"{text_of(fitted._replace(pools=pools))}%%\n{cert}")
                if status != 1 or not verdict.startswith("no\n"):
                    return f"smaller sizes are enough: {less}"
        return ""

    def is_reported(self):
        if self.fault:
            print(f"for the plan\n{self.given}the answer, with status {self.status}, is\n{self.printed}{self.fault}\n")
        return bool(self.fault)


def sizes_of(pool):
    """Returns the core, the maximum and the queue of a pool. The queue is 0 if it is unbounded, and then the maximum is 0 too, unless core
    threads may time out."""
    return (pool.core, pool.max if pool.core_timeout else 0, 0) if pool.unbounded else (pool.core, pool.max, pool.queue)


def keys_of(pool):
    """Returns the keys of the sizes that `fit` prints of a pool."""
    if not pool.unbounded:
        return "core", "max", "queue"
    return ("core", "max") if pool.core_timeout else ("core",)


def without_sizes(plan):
    return plan._replace(pools=[pool._replace(core=0, max=0, queue=0) for pool in plan.pools])


def lessened(now, found):
    """Yields the found pool with a core that is smaller by one and with a queue that is smaller by one, if these have grown."""
    if found.core > now.core:
        yield found._replace(core=found.core - 1)
    if found.queue > now.queue:
        yield found._replace(queue=found.queue - 1)


def wanted_lines(plan, fitted):
    """Returns the expected answer of `fit` if it finds the sizes of `fitted`, and the number of sizes that change."""
    lines, changes = [], 0
    for now, found in zip(plan.pools, fitted.pools):
        numbers = []
        for word, old, new in zip(keys_of(now), sizes_of(now), sizes_of(found)):
            numbers.append(f"{word} {'unbounded' if new == NO_MAXIMUM else new}" + (f" (now {old})" if new != old else ""))
            changes += new != old
        numbers += ["queue unbounded"] if now.unbounded else []
        lines.append(f"pool {now.name}: {', '.join(numbers)}\n")
    return "".join(lines) + f"changes {changes}\n", changes


# ---- larger plans

def larger_plan(chance):
    """Returns a random plan with many pools of the smallest sizes, whose jobs get jobs of other pools."""
    pools = [Pool(1, 1, 1, False) for _ in range(chance.randint(FEWEST_POOLS, MOST_POOLS))]
    classes = []
    for number in range(2 * len(pools)):
        submits = [("submit", chance.randrange(number)) for _ in range(chance.randint(0, 3))] if number else []
        classes.append(Class(chance.randrange(len(pools)), submits + [("get", place) for place in range(len(submits))]))
    clients = [Client(3, True, [("submit", chance.randrange(len(classes))), ("get", 0)]) for _ in pools]
    return Plan(pools, classes, clients)


# ---- smaller sizes

def is_comparable(plan, fit):
    """Returns whether the sizes of `fit` for a small plan are small, and there are not too many smaller sizes to try."""
    is_small = not fit.fault and all(size <= MOST_SMALL_SIZE for sizes in fit.sizes for size in sizes if size != NO_MAXIMUM)
    return is_small and cheaper_ones(plan, growth(plan, fit.sizes)) <= MOST_CHEAPER


def cheaper_ones(plan, limit):
    """Returns the number of ways in which the plan's sizes can grow by less than `limit` in total."""
    sizes = 3 * len(plan.pools)
    return comb(limit - 1 + sizes, sizes)


def saving(program, plan, fit):
    """Returns the difference between the total growth of the sizes of `fit` and the least growth with a certificate, and the number of
    sizes that were tried."""
    tried = []

    def is_certified(other):
        tried.append(other)
        return run(program, "certify", text(other))[0] == 0

    limit = growth(plan, fit.sizes)
    cheaper = cheaper_sizes(plan, limit, is_certified)
    if cheaper is None:
        return 0, len(tried)
    print(f"for the plan\n{fit.given}the answer is\n{fit.printed}but these sizes (core, max, queue) are enough: {cheaper}\n", flush=True)
    return limit - growth(plan, cheaper), len(tried)


if __name__ == "__main__":
    sys.exit(main())
