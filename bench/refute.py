#!/usr/bin/env python3
"""usage: refute.py

Measures the time of `sizing refute` on plans that have a witness, and replays the output of `--bundle` on the machine of machine.py.
On one plan that has neither a witness nor a certificate, compares the instructions for each visited state with those of
walk_states.c, a plain program that walks through the same states. README.md describes the measurements and the bars.

The program is crates/sizing/out/sizing, or the one that the environment variable SIZING names.

Exit status: 0 if each witness is right and no bar is exceeded, 1 if not, 2 if the benchmark cannot be run.
"""

import re
import subprocess
import sys

sys.dont_write_bytecode = True

from machine import Class, Client, Machine, Plan, Pool
from timing import Bars, Program, Table, Wrong, built, compiled, costs, has_callgrind, instructions, tell_if_uncounted, without_words

RUNS = 3
CLIENTS = 200
BAR = 1_000
LONG_BAR = 10_000
# A limit of states that the walks do not reach, and the maximum ratio of the instructions for a state to those of the plain program.
STATES = 10_000_000
RATIO_BAR = 2
# The maximum number of states in the best-first search of `refute`, which the plain program lacks, in percent of those of the walks.
OTHERS = 1


def main(words):
    return without_words("refute.py", words, lambda folder: Bench(folder).run())


class Bench:
    """The program, the table, and the bars that are exceeded so far."""

    def __init__(self, folder):
        self.folder = folder
        self.sizing = built("sizing")
        self.measure = compiled(folder, "measure")
        self.bars = Bars()
        self.table = Table(("plan", 34), ("ends", 7), ("events", 7), ("ms", 8), ("bar", 6), ("MiB", 5))

    def run(self):
        for queue in (50, 150, 199):
            self.measured(f"{CLIENTS} clients, a queue of {queue}", web_and_database(queue), BAR)
        self.measured("2 pools of 50 that call each other", there_and_back(50), BAR)
        self.measured("a fork-join of 8", fork_join(8), BAR)
        self.measured("10^6 clients, a queue of 70,000", database(10, 70_000, 1_000_000), LONG_BAR)
        self.beside_plain_walks()
        self.bars.end()

    def beside_plain_walks(self):
        """Prints the instructions for a state of `refute` and of the plain program, and compares their ratio with the bar."""
        plan = never_decided()
        (self.folder / "plan").write_text(plan.text())
        (self.folder / "numbers").write_text(numbers(plan))
        said = self.answer("never decided", 4, plan.text(), "--states", str(STATES)).decode()
        reported = int(re.fullmatch(r"not decided: (\d+) states were searched\n", said)[1])
        plain = [compiled(self.folder, "walk_states"), str(STATES)]
        walked = int(subprocess.run(plain, input=numbers(plan), capture_output=True, text=True, check=True).stdout)
        if not walked <= reported <= walked + walked * OTHERS / 100:
            raise Wrong(f"never decided: refute reports {reported} states, and the plain program visits {walked}")
        tell_if_uncounted()
        if not has_callgrind():
            return
        refute = Program([self.sizing, "refute", "--states", str(STATES)], b"", 4, "plan")
        of_refute = instructions(self.folder, refute) * 1e6 / reported
        of_plain = instructions(self.folder, Program(plain, b"", 0, "numbers")) * 1e6 / walked
        ratio = of_refute / of_plain
        print(f"{reported} states: {of_refute:.0f} instructions each, {of_plain:.0f} in the plain program, ratio {ratio:.2f}")
        self.bars.hold("the ratio of instructions for a state", ratio, RATIO_BAR)

    def measured(self, name, plan, bar):
        """Prints a row for the plan, and compares the time with the bar."""
        text = plan.text()
        (self.folder / "plan").write_text(text)
        said = self.answer(name, 1, text)
        ends, events = ended(name, plan, self.answer(name, 0, text, "--bundle").decode())
        refute = Program([self.sizing, "refute"], said, 1, "plan")
        (cost,) = costs(self.folder, self.measure, [refute], RUNS)
        self.table.row(
            name,
            ends,
            events,
            f"{cost.milliseconds:.1f}",
            bar,
            f"{cost.mebibytes:.1f}",
        )
        self.bars.hold(f"{name}: the milliseconds", cost.milliseconds, bar)

    def answer(self, name, status, text, *words):
        done = subprocess.run([self.sizing, "refute", *words], input=text.encode(), stdout=subprocess.PIPE, check=False)
        if done.returncode != status:
            raise Wrong(f"{name}: refute {' '.join(words)} ends with {done.returncode}: {done.stdout[:100]}")
        return done.stdout


def ended(name, plan, bundle):
    """Returns how the witness ends (`refused` or `stuck`), and the number of its events."""
    lines = bundle.partition("\n%%\n")[2].split("\n")
    lines = [line for line in lines if line]
    machine = Machine(plan)
    outcome = ""
    for line in lines:
        outcome = machine.happen(line)
        if outcome is None:
            raise Wrong(f"{name}: not possible: {line}")
    if outcome.startswith("refused"):
        return "refused", len(lines)
    if outcome != "stuck yes":
        raise Wrong(f"{name}: the outcome of the last line is {outcome!r}")
    return "stuck", len(lines) - 1


def web_and_database(queue):
    """Returns a plan in which each job of a web pool gets a job of a database pool, whose queue has this capacity."""
    classes = [Class("request", "web", ["submit query as q", "get q"]), Class("query", "db", ["work 1"])]
    client = Client("user", CLIENTS, True, ["submit request as r", "get r"])
    return Plan([Pool("web", CLIENTS, CLIENTS, CLIENTS), Pool("db", 10, 10, queue)], classes, [client])


def there_and_back(size):
    """Returns a plan with two pools of this size, in which jobs of each pool get jobs of the other pool."""
    pools = [Pool("p", size, size, 2 * size), Pool("q", size, size, 2 * size)]
    classes = [
        Class("there", "p", ["submit low as x", "get x"]),
        Class("low", "q", ["work 1"]),
        Class("back", "q", ["submit high as x", "get x"]),
        Class("high", "p", ["work 1"]),
    ]
    clients = [
        Client("one", size, True, ["submit there as x", "get x"]),
        Client("other", size, True, ["submit back as x", "get x"]),
    ]
    return Plan(pools, classes, clients)


def fork_join(parts):
    """Returns a plan in which each report submits `parts` jobs to its own pool, and then gets all of them."""
    body = [f"submit part as s{number}" for number in range(parts)] + [f"get s{number}" for number in range(parts)]
    classes = [Class("part", "p", ["work 1"]), Class("report", "p", body)]
    client = Client("user", parts, True, ["submit report as r", "get r"])
    return Plan([Pool("p", parts, parts, parts * parts)], classes, [client])


def never_decided():
    """Returns a safe plan without a certificate: a class submits itself, but no client submits the class. No vector exceeds its bound."""
    classes = [
        Class("request", "web", ["submit query as q", "get q"]),
        Class("query", "db", ["work 1"]),
        Class("again", "web", ["submit again as a", "get a"]),
    ]
    client = Client("user", 3, True, ["submit request as r", "get r"])
    return Plan([Pool("web", 2, 2, 3), Pool("db", 1, 1, 2)], classes, [client])


def numbers(plan):
    """Returns the text of the plan for walk_states.c."""
    pools = [pool.name for pool in plan.pools]
    classes = [of_class.name for of_class in plan.classes]
    lines = [[len(plan.pools)], *([pool.core, pool.max, pool.queue, 0] for pool in plan.pools), [len(plan.clients)]]
    lines += [[client.count, int(client.repeat), *body_numbers(classes, client.body)] for client in plan.clients]
    lines += [[len(classes)]]
    lines += [[pools.index(of_class.pool), *body_numbers(classes, of_class.body)] for of_class in plan.classes]
    return "".join(" ".join(map(str, line)) + "\n" for line in lines)


def body_numbers(classes, body):
    """Returns the number of actions, and two numbers for each action: 0 0 for work, 1 and the class for a submit, or 2 and the position
    of the submit for a get."""
    given, slots = [len(body)], {}
    for position, action in enumerate(body):
        word, operand, *rest = action.split()
        if word == "submit":
            slots[rest[-1]] = position
            given += [1, classes.index(operand)]
        else:
            given += [2, slots[operand]] if word == "get" else [0, 0]
    return given


def database(threads, queue, clients):
    """Returns a plan with one pool, which has these sizes, and this number of clients."""
    client = Client("user", clients, True, ["submit query as q", "get q"])
    return Plan([Pool("db", threads, threads, queue)], [Class("query", "db", ["work 1"])], [client])


if __name__ == "__main__":
    sys.exit(main(sys.argv[1:]))
