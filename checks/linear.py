#!/usr/bin/env python3
"""usage: linear.py [CASE..]

Counts the instructions of `sizing conform` and `sizing learn` on recordings of 10,000 and of 40,000 lines, by valgrind. Each case
is a recording that would make some part of the program quadratic if that part searched a list: `pool` lines that differ, labels,
open rounds, live jobs, lines that invalidate the answer, mixtures of these, and many findings. Four times as many lines must take
at most five times as many instructions.

`rescans` wants that 500 findings in 10,000 lines take at most three times the instructions of as many lines without a finding.

Three more cases read 100,000 lines of rounds that each submit 20 alike jobs and get them. With the gets in random orders,
`random_orders` allows `conform` three times the instructions that it takes with the gets in order. So does `missing_gets`, if
each round gets all jobs but one: such rounds match no body. `learned_orders` wants that `learn` finds a body of 40 actions.

Without arguments it runs all cases. The program is crates/sizing/out/sizing, or the one that the environment variable SIZING names.

Exit status: 0 if each case is within its bar, 1 if one is not, 2 if there is no program, no valgrind or no such case.
"""

import os
import random
import re
import shutil
import subprocess
import sys
import tempfile
import tomllib
from pathlib import Path

ROOT = Path(__file__).resolve().parent.parent
FEW, MANY = 10_000, 40_000
# The maximum ratio of the instructions for MANY lines to those for FEW.
MOST_RATIO = 5
ALIKE, ALIKE_LINES = 20, 100_000
# The maximum ratio of the instructions with gets in random orders to those with gets in order.
MOST_OF_ORDERS = 3
# The number of labels of jobs, and of rounds, each with a finding, and the maximum ratio of the instructions to those without findings.
LABELS = 250
MOST_OF_FINDINGS = 3
# A run that takes longer under valgrind is not counted, and fails.
SECONDS = 300
SEED = 1

COUNTED = re.compile(r"Collected : (\d+)")


class Unable(Exception):
    """The check cannot be run."""


class TooSlow(Exception):
    """A run takes too long to be counted."""


# ---- plans
def pool(name):
    return f'[[pool]]\nname = "{name}"\ncore = 1\nmax = 1\nqueue = 1\n\n'


def job_class(name, body=()):
    return f'[[class]]\nname = "{name}"\npool = "p"\nbody = [{actions(body)}]\n\n'


def client(name, body=(), count=1_000_000):
    return f'[[client]]\nname = "{name}"\ncount = {count}\nrepeat = true\nbody = [{actions(body)}]\n\n'


def actions(body):
    return ", ".join(f'"{action}"' for action in body)


def one_job(name):
    return (f"submit {name} as x", "get x")


def in_order(name, count):
    """Returns a body with this number of submits of a class, and then their gets."""
    return [f"submit {name} as s{n}" for n in range(count)] + [f"get s{n}" for n in range(count)]


PLAN = pool("p") + job_class("a") + job_class("b", one_job("a")) + client("c", one_job("a")) + client("d", one_job("b"))


# ---- recordings
class Recording:
    """The lines of a recording, with the numbers of the next round and of the next job."""

    def __init__(self):
        self.lines = ["recording 1"]
        self.rounds = self.jobs = 0
        self.sizes("p")

    def add(self, line):
        self.lines.append(line)

    def sizes(self, name, most=1):
        self.add(f"pool {name} core 1 max {most} queue array 1 timeout no prestarted 0 handler abort")

    def begin(self, kind="c"):
        self.add(f"round {self.rounds} begin {kind}")
        self.rounds += 1
        return f"round {self.rounds - 1}"

    def end(self, actor):
        self.add(f"{actor} end")

    def submit(self, actor, label="a"):
        self.add(f"{actor} submit {self.jobs} {label} p")
        self.jobs += 1
        return self.jobs - 1

    def run(self, job):
        self.add(f"job {job} start")
        self.add(f"job {job} end")

    def got(self, actor, job):
        self.add(f"{actor} got {job}")

    def round(self, kind="c", label="a"):
        """Adds six lines: a round that submits one job and gets it."""
        actor = self.begin(kind)
        job = self.submit(actor, label)
        self.run(job)
        self.got(actor, job)
        self.end(actor)

    def text(self):
        return "".join(f"{line}\n" for line in [*self.lines, "end"])


def name_of(number):
    """Returns a name of its own for each number, without digits."""
    name = ""
    for _ in range(4):
        number, digit = divmod(number, 26)
        name += chr(ord("a") + digit)
    return f"n{name}"


def in_turn(recording, lines, step):
    """Calls the step with 0, 1, 2 and so on until the recording has this number of lines."""
    number = 0
    while len(recording.lines) < lines:
        step(number)
        number += 1


def sizes_of_a_pool(lines):
    recording = Recording()
    in_turn(recording, lines, lambda n: recording.sizes("p", n + 2))
    return PLAN, recording


def pools(lines):
    recording = Recording()
    in_turn(recording, lines, lambda n: recording.sizes(name_of(n)))
    return PLAN, recording


def labels_of_jobs(lines):
    recording = Recording()
    in_turn(recording, lines, lambda n: recording.round(label=name_of(n)))
    return PLAN, recording


def labels_of_rounds(lines):
    recording = Recording()
    in_turn(recording, lines, lambda n: recording.round(kind=name_of(n)))
    return PLAN, recording


def open_rounds(lines):
    """Returns the plan and a recording of rounds that all begin and submit before the first one gets its job and ends."""
    recording = Recording()
    opened = []

    def begin(_):
        actor = recording.begin()
        opened.append((actor, recording.submit(actor)))

    in_turn(recording, lines // 3, begin)
    for actor, job in opened:
        recording.run(job)
        recording.got(actor, job)
        recording.end(actor)
    return PLAN, recording


def rounds_that_never_end(lines):
    recording = Recording()
    in_turn(recording, lines, lambda n: recording.submit(recording.begin()))
    return PLAN, recording


def rounds_that_timed_out(lines):
    """Returns the plan and a recording: rounds that end with a get that timed out, and then as many lines of other rounds."""
    recording = Recording()

    def timed_out(_):
        actor = recording.begin()
        job = recording.submit(actor)
        recording.add(f"{actor} timeout {job}")

    in_turn(recording, lines // 2, timed_out)
    in_turn(recording, lines, lambda n: recording.round())
    return PLAN, recording


def live_jobs(lines, ordered=lambda jobs: jobs):
    """Returns the plan and a recording of a round that submits all its jobs before one starts, and gets them in this order."""
    recording = Recording()
    actor = recording.begin()
    jobs = [recording.submit(actor) for _ in range(lines // 4)]
    for job in jobs:
        recording.run(job)
    for job in ordered(jobs):
        recording.got(actor, job)
    recording.end(actor)
    return PLAN, recording


def live_jobs_backwards(lines):
    return live_jobs(lines, lambda jobs: jobs[::-1])


def live_jobs_in_random_order(lines):
    return live_jobs(lines, lambda jobs: random.Random(SEED).sample(jobs, len(jobs)))


def jobs_without_a_get(lines):
    recording = Recording()
    actor = recording.begin()
    in_turn(recording, lines, lambda n: recording.run(recording.submit(actor)))
    return PLAN, recording


def jobs_in_a_chain(lines):
    """Returns the plan and a recording of jobs that each submit the next one before any of them ends."""
    recording = Recording()
    job = recording.submit(recording.begin("d"), "b")
    jobs = [job]
    for _ in range(lines // 4):
        recording.add(f"job {jobs[-1]} start")
        jobs.append(recording.submit(f"job {jobs[-1]}", "b"))
    recording.run(jobs[-1])
    for parent, child in zip(jobs[-2::-1], jobs[::-1]):
        recording.got(f"job {parent}", child)
        recording.end(f"job {parent}")
    return PLAN, recording


def refused_jobs(lines):
    recording = Recording()
    actor = recording.begin()
    in_turn(recording, lines, lambda n: recording.add(f"{actor} refused {recording.submit(actor)}"))
    return PLAN, recording


def invalid_lines(lines):
    """Returns the plan and a recording that repeats every line that invalidates the answer."""
    recording = Recording()

    def all_of_them(_):
        actor = recording.begin()
        recording.add(f"{actor} refused {recording.submit(actor)}")
        for word in ("timeout", "interrupted", "cancel"):
            recording.add(f"{actor} {word} {recording.submit(actor)}")
        recording.add(f"{actor} any p")
        recording.add(f"removed {recording.submit(actor)}")
        job = recording.submit(actor)
        recording.add(f"job {job} start")
        recording.add(f"job {job} threw")
        recording.add("unseen p 1")

    in_turn(recording, lines, all_of_them)
    return PLAN, recording


def gets_of_other_rounds(lines):
    """Returns the plan and a recording in which one round gets the jobs of all others."""
    recording = Recording()
    taker = recording.begin()

    def taken(_):
        actor = recording.begin()
        job = recording.submit(actor)
        recording.run(job)
        recording.got(taker, job)
        recording.end(actor)

    in_turn(recording, lines, taken)
    return PLAN, recording


def findings(lines, has_any=True):
    """Returns a plan and a recording. If `has_any`, the last lines have a path for each label that its body does not have."""
    names = [name_of(n) for n in range(LABELS)]
    plan = pool("p") + "".join(job_class(name) + client(name, one_job(name)) for name in names)
    recording = Recording()
    in_turn(recording, lines - 6 * LABELS, lambda n: recording.round(names[n % LABELS], names[n % LABELS]))
    for name in names:
        if not has_any:
            recording.round(name, name)
            continue
        actor = recording.begin(name)
        job = recording.submit(actor, name)
        recording.add(f"job {job} start")
        recording.submit(f"job {job}", name)
        recording.end(f"job {job}")
        recording.end(actor)
    return plan, recording


def mixture(lines):
    """Returns the plan and a recording of random steps: begins and ends of rounds, and submits, runs and gets of live actors."""
    chance = random.Random(SEED)
    recording = Recording()
    actors, waiting, done = [], [], []

    def step(n):
        kind = chance.randrange(8)
        if kind == 0 or not actors:
            actors.append(recording.begin(name_of(n) if n % 3 == 0 else "c"))
        elif kind == 1 and n % 5 == 0:
            recording.sizes("p", n + 2)
        elif kind == 2 and n % 7 == 0:
            recording.end(actors.pop(chance.randrange(len(actors))))
        elif kind <= 4:
            actor = chance.choice(actors)
            waiting.append((actor, recording.submit(actor, name_of(n) if n % 4 == 0 else "a")))
        elif kind <= 6 and waiting:
            actor, job = waiting.pop(chance.randrange(len(waiting)))
            recording.run(job)
            done.append((actor, job))
        elif done:
            actor, job = done.pop(chance.randrange(len(done)))
            if actor in actors[-50:]:
                recording.got(actor, job)

    in_turn(recording, lines, step)
    return PLAN, recording


GROWING = [
    sizes_of_a_pool, pools, labels_of_jobs, labels_of_rounds, open_rounds, rounds_that_never_end, rounds_that_timed_out, live_jobs,
    live_jobs_backwards, live_jobs_in_random_order, jobs_without_a_get, jobs_in_a_chain, refused_jobs, invalid_lines,
    gets_of_other_rounds, findings, mixture,
]


# ---- 20 alike jobs
def alike_jobs(is_random, got=ALIKE):
    chance = random.Random(SEED)
    plan = pool("p") + job_class("a") + client("c", in_order("a", ALIKE))
    recording = Recording()

    def one(_):
        actor = recording.begin()
        jobs = [recording.submit(actor) for _ in range(ALIKE)]
        for job in jobs:
            recording.run(job)
        for job in chance.sample(jobs, got) if is_random else jobs:
            recording.got(actor, job)
        recording.end(actor)

    in_turn(recording, ALIKE_LINES, one)
    return plan, recording


def random_orders(program, folder):
    ordered = counted(program, "conform", folder, *alike_jobs(False))
    shuffled = counted(program, "conform", folder, *alike_jobs(True))
    return compared("conform", ordered, shuffled, MOST_OF_ORDERS)


def missing_gets(program, folder):
    ordered = counted(program, "conform", folder, *alike_jobs(False))
    missing = counted(program, "conform", folder, *alike_jobs(True, ALIKE - 1))
    return compared("conform", ordered, missing, MOST_OF_ORDERS)


def learned_orders(program, folder):
    given = written(folder, "learn", *alike_jobs(True))
    with open(given, "rb") as text:
        ended = subprocess.run([program, "learn"], stdin=text, capture_output=True, text=True, timeout=SECONDS)
    try:
        plan = tomllib.loads(ended.stdout)
    except tomllib.TOMLDecodeError:
        plan = {}
    bodies = [entry["body"] for kind in ("class", "client") for entry in plan.get(kind, [])]
    lengths = [len(body) for body in bodies if body]
    print(f"  learn: status {ended.returncode}, bodies of {lengths or 'no'} actions, wanted one of {2 * ALIKE}", flush=True)
    return ended.returncode == 0 and lengths == [2 * ALIKE]


def rescans(program, folder):
    none = counted(program, "conform", folder, *findings(FEW, False))
    many = counted(program, "conform", folder, *findings(FEW))
    return compared("conform", none, many, MOST_OF_FINDINGS)


# ---- counts
def written(folder, command, plan, recording):
    """Writes the input of the command, and returns its path."""
    given = folder / "given"
    given.write_text((f"{plan}%%\n" if command == "conform" else "") + recording.text())
    return given


def counted(program, command, folder, plan, recording):
    """Returns the number of instructions that the command executes on this input."""
    counter = ["valgrind", "--tool=callgrind", f"--callgrind-out-file={os.devnull}", program, command]
    with open(written(folder, command, plan, recording), "rb") as given:
        try:
            ended = subprocess.run(
                counter, stdin=given, stdout=subprocess.DEVNULL, stderr=subprocess.PIPE, text=True, timeout=SECONDS
            )
        except subprocess.TimeoutExpired:
            raise TooSlow(f"no end within {SECONDS} seconds on {len(recording.lines) + 1} lines") from None
    found = COUNTED.search(ended.stderr)
    if ended.returncode not in (0, 1, 4) or not found:
        raise Unable(f"{command} ends with status {ended.returncode}: {ended.stderr.strip()[-300:]}")
    return int(found.group(1))


def compared(command, few, many, most):
    """Prints the two counts and their ratio, and returns whether the ratio is within its bar."""
    print(f"  {command}: {few / 1e6:.1f} M and {many / 1e6:.1f} M instructions, {many / few:.2f} times; at most {most}", flush=True)
    return many <= most * few


def grows_linearly(program, folder, case):
    """Counts both commands on both lengths, and returns whether each ratio is within its bar."""
    is_within = True
    for command in ("conform", "learn"):
        try:
            few, many = [counted(program, command, folder, *case(lines)) for lines in (FEW, MANY)]
            is_within &= compared(command, few, many, MOST_RATIO)
        except TooSlow as why:
            print(f"  {command}: {why}", flush=True)
            is_within = False
    return is_within


def cases():
    growing = {case.__name__: lambda program, folder, case=case: grows_linearly(program, folder, case) for case in GROWING}
    return {**growing, "rescans": rescans, "random_orders": random_orders, "missing_gets": missing_gets, "learned_orders": learned_orders}


def main(words):
    all_cases = cases()
    chosen = words or list(all_cases)
    if unknown := [word for word in chosen if word not in all_cases]:
        print(f"no case {unknown[0]}; the cases are {', '.join(all_cases)}", file=sys.stderr)
        return 2
    program = Path(os.environ.get("SIZING") or ROOT / "crates/sizing/out/sizing").resolve()
    if not os.access(program, os.X_OK) or not program.is_file():
        print(f"there is no program at {program}: run `make program` at the top of the repository", file=sys.stderr)
        return 2
    if shutil.which("valgrind") is None:
        print("no instructions are counted: valgrind is missing (`apt-get install valgrind`)", file=sys.stderr)
        return 2
    wrong = []
    with tempfile.TemporaryDirectory(prefix="sizing-linear-") as folder:
        for name in chosen:
            print(name, flush=True)
            try:
                if not all_cases[name](program, Path(folder)):
                    wrong.append(name)
            except TooSlow as why:
                print(f"  {why}", flush=True)
                wrong.append(name)
            except Unable as why:
                print(why, file=sys.stderr)
                return 2
    print(f"{len(chosen) - len(wrong)} cases are within their bars, {len(wrong)} are not{': ' if wrong else ''}{', '.join(wrong)}")
    return 1 if wrong else 0


if __name__ == "__main__":
    sys.dont_write_bytecode = True
    sys.exit(main(sys.argv[1:]))
