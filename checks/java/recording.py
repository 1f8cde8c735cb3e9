"""Reads a recording, and checks it against the forms and the rules O1 to O7 of docs/RECORDING.md."""

import re
from dataclasses import dataclass, field
from typing import NamedTuple

NUMBER = "(?:0|[1-9][0-9]{0,8}|1000000000)"
NAME = "[a-z][a-z0-9_]{0,31}"
SIZES = (f"core {NUMBER} max {NUMBER} queue (?:array|linked|synchronous|priority|other) {NUMBER} timeout (?:yes|no) "
         f"prestarted {NUMBER} handler (?:abort|caller_runs|discard|discard_oldest|other)")
FORMS = re.compile("|".join((
    "recording 1", "end", f"pool {NAME} {SIZES}", f"round {NUMBER} begin {NAME}", f"round {NUMBER} end",
    f"job {NUMBER} (?:start|end|threw)", f"(?:job|round) {NUMBER} submit {NUMBER} {NAME} {NAME}",
    f"(?:job|round) {NUMBER} (?:refused|got|timeout|interrupted|cancel) {NUMBER}", f"(?:job|round) {NUMBER} any {NAME}",
    f"removed {NUMBER}", f"shutdown {NAME}", f"unseen {NAME} {NUMBER}",
)))


class BadLine(Exception):
    def __init__(self, number, rule):
        super().__init__(f"line {number}: {rule}")
        self.number, self.rule = number, rule


class Sizes(NamedTuple):
    line: int
    core: int
    max: int
    kind: str
    queue: int
    timeout: bool
    prestarted: int
    handler: str


class Act(NamedTuple):
    """A line of an actor: its word, and the job that it names. A line `any` names a pool instead."""

    line: int
    word: str
    job: object
    pool: str | None = None


@dataclass(eq=False)
class Actor:
    """A job or a round. `first` is the line of its submit or its begin, and `last` is the line of its end, or None if it has none."""

    sort: str
    number: int
    name: str  # the class of the job, or the client kind of the round
    pool: str | None
    submitter: "Actor | None"
    first: int
    started: int | None = None
    last: int | None = None
    refused: bool = False
    acts: list = field(default_factory=list)

    def __str__(self):
        return f"{self.sort} {self.number}"


@dataclass
class Recording:
    pools: dict = field(default_factory=dict)  # the `pool` lines of each pool, as Sizes, by the pool's name
    jobs: list = field(default_factory=list)
    rounds: list = field(default_factory=list)
    notes: list = field(default_factory=list)  # the lines without an actor: (line number, word, the job or pool that it names)
    unseen: dict = field(default_factory=dict)  # the numbers of jobs that ran without lines, by the number of the `unseen` line
    closed: bool = False


def read(text):
    """Parses a recording, which may be cut off. Raises BadLine if a line has none of the forms or breaks a rule."""
    lines = text.split("\n")[:-1]  # without the text after the last newline
    if not lines:
        raise BadLine(1, "O1")
    reader = Reader()
    for number, line in enumerate(lines, 1):
        reader.line(number, line)
    return reader.recording


class Reader:
    def __init__(self):
        self.recording, self.number, self.done, self.cancelled = Recording(), 0, set(), set()

    def hold(self, holds, rule):
        if not holds:
            raise BadLine(self.number, rule)

    def line(self, number, line):
        self.number = number
        self.hold(FORMS.fullmatch(line), "form")
        self.hold((number == 1) == (line == "recording 1") and not self.recording.closed, "O1")
        words = line.split(" ")
        if words[0] in ("job", "round"):
            getattr(self, words[0])(int(words[1]), words[2], words[3:])
        elif number > 1:
            getattr(self, words[0])(*words[1:])

    # ---- lines without an actor

    def end(self):
        self.recording.closed = True

    def pool(self, name, *words):
        core, most, kind, queue, timeout, prestarted, handler = (words[at] for at in (1, 3, 5, 6, 8, 10, 12))
        sizes = Sizes(self.number, int(core), int(most), kind, int(queue), timeout == "yes", int(prestarted), handler)
        self.recording.pools.setdefault(name, []).append(sizes)

    def shutdown(self, pool, *count):
        self.hold(pool in self.recording.pools, "O2")
        self.recording.notes.append((self.number, "unseen" if count else "shutdown", pool))
        for jobs in count:
            self.recording.unseen[self.number] = jobs

    unseen = shutdown

    def removed(self, number):
        job = self.named(number)
        self.recording.notes.append((self.number, "removed", job))

    def named(self, number):
        self.hold(int(number) < len(self.recording.jobs), "O3")
        return self.recording.jobs[int(number)]

    # ---- lines of actors

    def round(self, number, word, rest):
        rounds = self.recording.rounds
        if word == "begin":
            self.hold(number == len(rounds), "O3")
            rounds.append(Actor("round", number, rest[0], None, None, self.number, self.number))
            return
        self.hold(number < len(rounds) and rounds[number].last is None, "O4")
        self.act(rounds[number], word, rest)

    def job(self, number, word, rest):
        if word == "start":
            job = self.named(number)
            self.hold(job.started is None, "O5")
            job.started = self.number
            return
        jobs = self.recording.jobs
        self.hold(number < len(jobs) and jobs[number].started is not None and jobs[number].last is None, "O5")
        self.act(jobs[number], word, rest)

    def act(self, actor, word, rest):
        if word in ("end", "threw"):
            actor.last = self.number
            if actor.sort == "job":
                self.done.add(actor)
            if word == "threw":
                actor.acts.append(Act(self.number, word, actor))
        elif word == "any":
            self.hold(rest[0] in self.recording.pools, "O2")
            actor.acts.append(Act(self.number, word, None, rest[0]))
        elif word == "submit":
            self.submit(actor, *rest)
        else:
            self.future(actor, word, self.named(rest[0]))

    def submit(self, actor, number, name, pool):
        self.hold(int(number) == len(self.recording.jobs), "O3")
        self.hold(pool in self.recording.pools, "O2")
        job = Actor("job", int(number), name, pool, actor, self.number)
        self.recording.jobs.append(job)
        actor.acts.append(Act(self.number, "submit", job))

    def future(self, actor, word, job):
        if word == "refused":
            before = actor.acts[-1] if actor.acts else None
            self.hold(before is not None and before.word in ("submit", "refused") and before.job is job and job.started is None, "O6")
            job.refused = True
        if word == "got":
            self.hold(job in self.done or job in self.cancelled, "O7")
        if word == "cancel":
            self.cancelled.add(job)
        actor.acts.append(Act(self.number, word, job))
