#!/usr/bin/env python3
"""usage: run.py

Compares the processor time of `sizing run` with that of one_lock.c, a plain program whose threads, as many as in the run, make as
many events under one mutex. Also measures the processor time of a run whose threads mostly wait. README.md describes the
measurements and the bars.

The program is crates/sizing/out/sizing, or the one that the environment variable SIZING names.

Exit status: 0 if all answers are right and no bar is exceeded, 1 if not, 2 if the benchmark cannot be run.
"""

import subprocess
import sys
from dataclasses import dataclass

sys.dont_write_bytecode = True

from machine import Class, Client, Plan, Pool
from timing import Bars, Program, Table, Wrong, built, compiled, costs, without_words

RUNS = 5
TIME_BAR = 1.2
# The bar for the peak memory in MiB of a run of nearly a million events: 30 bytes for each event, and the memory of the threads.
MEBIBYTES_BAR = 35
# The run whose threads mostly wait: the sleep at each growth of memory, and the maximum ratio of the CPU time to the elapsed time.
SLEEP_MICROSECONDS = 20_000
IDLE_BAR = 0.05
IDLE_ROUNDS = 3
IDLE_RUNS = 2


@dataclass
class Row:
    """A plan and the number of rounds of its run. Each client submits a job, which submits a job and gets it, and so on, to a depth of
    `nested` jobs. The innermost job has `units` events of work."""

    name: str
    plan: Plan
    rounds: int
    nested: int
    units: int

    def clients(self):
        return sum(client.count for client in self.plan.clients)

    def carriers(self):
        return sum(pool.max for pool in self.plan.pools)

    def jobs(self):
        return self.clients() * self.rounds * (self.nested + 1)

    def events(self):
        """Returns an upper bound on the number of events, which include the take and the end of each job and a client's event between
        two rounds."""
        of_jobs = self.nested * (2 + 2) + 2 + self.units
        return self.clients() * (self.rounds * (2 + of_jobs) + self.rounds - 1)

    def answer(self):
        return f"jobs {self.jobs()}, units {self.clients() * self.rounds * self.units}, refused 0\n".encode()

    def words(self):
        """Returns the arguments of one_lock.c."""
        return [str(number) for number in (self.clients(), self.carriers(), self.rounds, self.nested, self.units)]


def main(words):
    return without_words("run.py", words, lambda folder: Bench(folder).run())


class Bench:
    """The programs, the table, and the bars that are exceeded so far."""

    def __init__(self, folder):
        self.folder = folder
        self.sizing = built("sizing")
        self.measure = compiled(folder, "measure")
        self.one_lock = compiled(folder, "one_lock", "-pthread")
        self.slow_growth = compiled(folder, "slow_growth", "-shared", "-fPIC")
        self.bars = Bars()

    def run(self):
        table = Table(
            ("plan", 26), ("threads", 7), ("events", 7), ("run ms", 8), ("one lock", 8), ("ratio", 5), ("bar", 4),
            ("elapsed", 8), ("one lock", 8), ("MiB", 5), ("one lock", 8),
        )
        for row in (many_clients(3124), nested_jobs(100_000)):
            self.compared(table, row)
        self.idle(many_clients(IDLE_ROUNDS))
        self.bars.end()

    def compared(self, table, row):
        """Prints a row for both programs, and compares the ratio of their processor times with its bar."""
        run = self.of_row(row)
        counted = Program([self.one_lock, *row.words()], f"events {row.events()}\n".encode(), given="bundle")
        first, second = costs(self.folder, self.measure, [run, counted], RUNS)
        ratio = first.milliseconds / second.milliseconds
        table.row(
            row.name,
            row.clients() + row.carriers(),
            row.events(),
            f"{first.milliseconds:.0f}",
            f"{second.milliseconds:.0f}",
            f"{ratio:.2f}",
            f"{TIME_BAR:.1f}",
            f"{first.elapsed:.0f}",
            f"{second.elapsed:.0f}",
            f"{first.mebibytes:.1f}",
            f"{second.mebibytes:.1f}",
        )
        self.bars.hold(f"{row.name}: ratio of the processor times", ratio, TIME_BAR)
        self.bars.hold(f"{row.name}: peak in MiB", first.mebibytes, MEBIBYTES_BAR)

    def idle(self, row):
        """Measures a run in which each growth of memory sleeps, so that all threads mostly wait."""
        run = self.of_row(row)
        words = ["/usr/bin/env", f"LD_PRELOAD={self.slow_growth}", f"SLOW_MICROSECONDS={SLEEP_MICROSECONDS}", *run.words]
        slowed = Program(words, run.answer, given="bundle")
        awake, idle = costs(self.folder, self.measure, [run, slowed], IDLE_RUNS)
        print(f"{row.name}, {row.rounds} rounds: {awake.milliseconds:.1f} ms of CPU time in {awake.elapsed:.0f} ms, and "
              f"{idle.milliseconds:.1f} ms in {idle.elapsed:.0f} ms where each growth sleeps")
        self.bars.hold(f"{row.name}, idle: the share of the CPU time", idle.milliseconds / idle.elapsed, IDLE_BAR)

    def of_row(self, row):
        """Writes the bundle of the row's plan into the folder, and returns the program that runs it."""
        certify = [self.sizing, "certify"]
        certified = subprocess.run(certify, input=row.plan.text().encode(), stdout=subprocess.PIPE, check=False)
        if certified.returncode != 0:
            raise Wrong(f"{row.name}: no certificate: {certified.stdout[:100].decode(errors='replace')}")
        (self.folder / "bundle").write_bytes(certified.stdout)
        return Program([self.sizing, "run", "--rounds", str(row.rounds)], row.answer(), given="bundle")


def many_clients(rounds):
    """Returns a row with 64 clients, each of which submits a job and gets it, and a pool of 64 threads. The jobs do nothing."""
    clients = [Client("c", 64, True, ["submit a as x", "get x"])]
    return Row("64 clients, 64 carriers", Plan([Pool("p", 64, 64, 64)], [Class("a", "p", [])], clients), rounds, 0, 0)


def nested_jobs(rounds):
    """Returns a row with one client, whose job submits a job to the same pool and waits for it. The pool has two threads."""
    get_one = ["submit inner as x", "get x"]
    classes = [Class("outer", "p", get_one), Class("inner", "p", ["work 1"])]
    clients = [Client("c", 1, True, ["submit outer as x", "get x"])]
    return Row("a client and a nested job", Plan([Pool("p", 2, 2, 5)], classes, clients), rounds, 1, 1)


if __name__ == "__main__":
    sys.exit(main(sys.argv[1:]))
