#!/usr/bin/env python3
"""Runs random plans on threads, with the built program, and compares each run with the plan.

    python3 checks/runs.py [RUNS [SEED]]     # by default 1,000 runs and seed 1

A plan has 1 to 64 clients, and pools with 1 to 64 threads in total, some of them with unbounded queues, and some with core threads that
may time out. If `sizing certify` finds a certificate, the program runs the plan for a number of rounds within the limits of a run. The
run must end within ten seconds, with the numbers of jobs and units that this check computes from the bodies alone. If the number of
rounds is too large for the plan, the program must return a fault. README.md describes how about half of the runs are disturbed.

The program is crates/sizing/out/sizing, or the one that the environment variable SIZING names.

Exit status: 0 if each run is right, 1 if one is not, 2 if the check cannot be run.
"""

import os
import random
import subprocess
import sys
import tempfile
from collections import Counter
from functools import cache
from pathlib import Path

sys.dont_write_bytecode = True

from found_certs import body_by_chance
from refused_growths import Unable, built, compile_object
from small_plans import NO_MAXIMUM, Class, Client, Plan, Pool, run, text_of, without_bound

MOST_CLIENTS = 64
MOST_CARRIERS = 64
MOST_EVENTS = 1_000_000
MOST_ROUNDS = 1_000_000
# The limits on the number of events of a run, one of which is chosen at random. A run of a single round may have more events.
EVENTS = [100, 1_000, 10_000, 30_000]
UNITS = [1, 2, 7, 1_000_000]
MOST_WRONG = 3
SECONDS = 10
TOO_LARGE = (2, f"fault 40 RunTooLarge: more than {MOST_EVENTS} events\n", "")


def main():
    words = [int(word) for word in sys.argv[1:]]
    runs, seed = (words + [1000, 1][len(words):])[:2]
    try:
        with tempfile.TemporaryDirectory() as folder:
            return Runs(built(), compile_object(Path(folder), "disturb"), random.Random(seed)).done(runs)
    except Unable as why:
        print(why, file=sys.stderr)
        return 2


class Runs:
    """The program, the shared object that disturbs its threads, and the counts of the runs so far."""

    def __init__(self, program, disturb, chance):
        self.program, self.disturb, self.chance = program, disturb, chance
        self.count, self.threads, self.wrong = Counter(), Counter(), 0

    def done(self, runs):
        while self.count["runs"] < runs and self.wrong < MOST_WRONG:
            plan = plan_by_chance(self.chance)
            status, bundle = run(self.program, "certify", text_of(plan))
            self.count["plans"] += 1
            if status == 0:
                self.one_plan(plan, bundle)
        print(", ".join(f"{what} {number}" for what, number in self.count.items()))
        print("runs by threads: " + ", ".join(f"{self.threads[low]} with {low} to {2 * low - 1}" for low in sorted(self.threads)))
        print(f"{self.wrong} wrong")
        return 1 if self.wrong else 0

    def one_plan(self, plan, bundle):
        """Runs a certified plan, and runs it once more with too many rounds, if a number of rounds is too large for it."""
        numbers = Numbers(plan)
        events = max(self.chance.choice(EVENTS), numbers.events(1))
        most = numbers.most_rounds(MOST_EVENTS)
        if most < MOST_ROUNDS:
            self.count["too large"] += 1
            self.held(bundle, most + 1, TOO_LARGE, {})
        if events <= max(EVENTS):
            rounds = self.chance.randint(1, numbers.most_rounds(events))
            settings = self.disturbed() if self.chance.random() < 0.5 else {}
            self.count["runs"] += 1
            self.count["disturbed"] += bool(settings)
            self.count["events at most"] += numbers.events(rounds)
            self.threads[2 ** (threads_of(plan).bit_length() - 1)] += 1
            self.held(bundle, rounds, (0, numbers.answer(rounds), ""), settings)

    def disturbed(self):
        return {"LD_PRELOAD": str(self.disturb), "DISTURB_SEED": str(self.chance.randrange(2**32))}

    def held(self, bundle, rounds, wanted, settings):
        """Runs a bundle, and prints how the run ends if that is not the expected end."""
        words = [self.program, "run", "--rounds", str(rounds)]
        try:
            done = subprocess.run(words, input=bundle, capture_output=True, text=True, timeout=SECONDS,
                                  env={**os.environ, **settings})
            ended = done.returncode, done.stdout, done.stderr
        except subprocess.TimeoutExpired:
            ended = f"it does not end within {SECONDS} seconds"
        if ended != wanted:
            self.wrong += 1
            print(f"run --rounds {rounds}, with {settings}: {ended}, expected {wanted}, for\n{bundle}", flush=True)


class Numbers:
    """The numbers of a run of a plan: its jobs, its units, and the upper bound on its events."""

    def __init__(self, plan):
        self.plan = plan

        @cache
        def of_class(number):
            """Returns the numbers of jobs, units and events that one job of the class causes, including its take and its end."""
            jobs, units, events = of_body(plan.classes[number].body)
            return jobs + 1, units, events + 2

        def of_body(body):
            """Returns the numbers of jobs, units and events that a body causes. Each of its actions is an event."""
            below = [of_class(operand) for what, operand in body if what == "submit"]
            jobs, units, events = (sum(column) for column in zip((0, 0, len(body)), *below))
            return jobs, units + sum(operand for what, operand in body if what == "work"), events

        self.clients = [(client, of_body(client.body)) for client in plan.clients]

    def total(self, rounds, which):
        return sum(client.count * (rounds if client.repeat else 1) * caused[which] for client, caused in self.clients)

    def events(self, rounds):
        loops = sum(client.count * (rounds - 1) for client, _ in self.clients if client.repeat)
        return self.total(rounds, 2) + loops

    def answer(self, rounds):
        return f"jobs {self.total(rounds, 0)}, units {self.total(rounds, 1)}, refused 0\n"

    def most_rounds(self, events):
        """Returns the maximum number of rounds with at most this number of events, or 0 if one round has more."""
        low, high = 0, MOST_ROUNDS
        while low < high:
            middle = (low + high + 1) // 2
            if self.events(middle) <= events:
                low = middle
            else:
                high = middle - 1
        return low


def threads_of(plan):
    return sum(client.count for client in plan.clients) + sum(map(carriers_of, plan.pools))


def carriers_of(pool):
    """Returns the number of threads of a pool in a run: its maximum, or its core if it has none."""
    return pool.core if pool.max == NO_MAXIMUM else pool.max


def plan_by_chance(chance):
    clients = parts(chance, about(chance, MOST_CLIENTS), 3)
    pools = [pool_by_chance(chance, threads, sum(clients)) for threads in parts(chance, about(chance, MOST_CARRIERS), 4)]
    pools = [pool._replace(name=f"p{number}") for number, pool in enumerate(pools)]
    classes = [Class(f"a{number}", chance.randrange(len(pools)), body(chance, number)) for number in range(chance.randint(1, 5))]
    kinds = [
        Client(f"c{number}", count, chance.random() < 0.7, body(chance, len(classes)))
        for number, count in enumerate(clients)
    ]
    return Plan(pools, classes, kinds)


def about(chance, most):
    """Returns a random number from 1 to `most`, uniform on a logarithmic scale, except that 1 and `most` are more frequent."""
    return chance.choice([1, most, *(round(most ** chance.random()) for _ in range(6))])


def parts(chance, whole, most):
    """Splits a number into at most `most` random parts of at least 1."""
    cuts = sorted(chance.sample(range(1, whole), min(chance.randrange(most), whole - 1)))
    return [high - low for low, high in zip([0, *cuts], [*cuts, whole])]


def pool_by_chance(chance, threads, clients):
    core = chance.choice([threads, chance.randint(1, threads)])
    queue = chance.choice([1, 2, clients, 3 * clients, 10 * clients])
    pool = Pool("", core, threads, queue, chance.random() < 0.2, core_timeout=chance.random() < 0.2)
    if chance.random() >= 0.2:
        return pool
    most = NO_MAXIMUM if pool.core_timeout and chance.random() < 0.5 else threads
    return without_bound(pool._replace(max=most))


def body(chance, classes):
    return [(what, chance.choice(UNITS) if what == "work" else operand) for what, operand in body_by_chance(chance, classes)]


if __name__ == "__main__":
    sys.exit(main())
