"""Checks whether a service still follows its plan: compares a recording with the plan, as docs/RECORDING.md describes ("What it says of
a plan").

    python3 checks/java/conform.py PLAN RECORDING

Prints `conforms`, or the findings, in the words of `crates/conformance` and in the order of the lines. Findings without a line come
last. Then comes a line for each pool that rejected jobs as the plan allows. The exit status is 0 if the recording conforms, and 1
otherwise.
"""

import math
import re
import sys
from collections import Counter
from pathlib import Path
from typing import NamedTuple

sys.dont_write_bytecode = True
sys.path.insert(0, str(Path(__file__).resolve().parent.parent))

from read_plans import read_plan
from recording import read
from small_plans import NO_MAXIMUM


# The greatest number in a name NAME_2, NAME_3, and so on, which is that of every number in a recording. The capacity of an unbounded queue
# is written so.
MAX_NUMBER = 1_000_000_000
# The greatest size of a plan that is a number. A recorded maximum above it is that of a pool without a maximum.
MAX_SIZE = 1_000_000
# The sorts of findings, in the order in which those of one line come.
POOLS, LABELS, PATHS, COUNTS, GETS, VOIDS = range(6)


class Step(NamedTuple):
    """A step of an actor that corresponds to an action of a body: a submit, or the first get of a future by its submitter."""

    line: int
    what: str
    job: object


class Walk(NamedTuple):
    """A position of a path and its body, which are walked together: the index of the body's next action, and the path's open jobs, each
    with the class of the submit of the body that it was submitted with."""

    position: int
    open: tuple  # pairs of a job and a class


class Body:
    """A body with the open jobs and the gets to come before each of its actions, and at its end."""

    def __init__(self, actions):
        self.actions = actions
        self.open = [Counter()]
        for what, operand in actions:
            counts = Counter(self.open[-1])
            if what == "submit":
                counts[operand] += 1
            elif what == "get":
                counts[actions[operand][1]] -= 1
            self.open.append(counts)

    def still_gets(self, position, number):
        return any(what == "get" and self.actions[operand][1] == number for what, operand in self.actions[position:])

    def has_room(self, position, jobs):
        """Returns whether the path has at most as many of these jobs of each class open as the body has there."""
        counts = Counter(number for _, number in jobs)
        return all(count <= self.open[position][number] for number, count in counts.items())

    def moves(self, walks):
        """Returns the walks, and those in which the body has gone on alone from there."""
        moved, left = set(), list(walks)
        while left:
            walk = left.pop()
            if walk not in moved:
                moved.add(walk)
                if walk.position < len(self.actions) and self.has_room(walk.position + 1, walk.open):
                    left.append(Walk(walk.position + 1, walk.open))
        return moved


class Comparison:
    def __init__(self, plan, recording):
        self.plan, self.recording = plan, recording
        self.findings, self.subjects = [], set()
        self.foreign = []  # the gets of futures by actors that did not submit the job, with their lines
        self.paths = {actor: [] for actor in recording.jobs + recording.rounds}
        self.fitting = {}  # for each job, the classes of the plan that it may have
        self.class_bodies = [Body(one.body) for one in plan.classes]
        self.kind_bodies = [Body(client.body) for client in plan.clients]
        self.find_paths()

    def finds(self, sort, subject, line, text):
        """Records a finding, unless its subject already has one. Findings of one line come in the order of their sorts."""
        if subject not in self.subjects:
            self.subjects.add(subject)
            self.findings.append((line or math.inf, sort, f"line {line}: {text}" if line else text))

    # ---- paths

    def find_paths(self):
        got = set()
        for actor, act in sorted(((actor, act) for actor in self.paths for act in actor.acts), key=lambda one: one[1].line):
            if act.word == "submit" and not act.job.refused:
                self.paths[actor].append(Step(act.line, "submit", act.job))
            elif act.word == "got" and act.job not in got:
                if act.job.submitter is not actor:
                    self.foreign.append((act.line, actor, act.job))
                else:
                    got.add(act.job)
                    self.paths[actor] += [] if act.job.refused else [Step(act.line, "get", act.job)]

    def family(self, entries, name):
        """Returns the entries of the plan that match a label: NAME itself, NAME_2, NAME_3, and so on."""
        return [number for number, entry in enumerate(entries) if re.fullmatch(re.escape(name) + "(_[1-9][0-9]*)?", entry.name)
                and (entry.name == name or 2 <= int(entry.name[len(name) + 1:]) <= MAX_NUMBER)]

    def classes_of(self, job):
        return [number for number in self.family(self.plan.classes, job.name) if self.plan.pools[self.plan.classes[number].pool].name == job.pool]

    def walk(self, actor, body):
        """Returns None if the actor's path matches the body, and otherwise how many of its first steps match."""
        walks = body.moves([Walk(0, ())])
        for at, step in enumerate(self.paths[actor]):
            walks = self.walks_after(walks, step, body, actor)
            if not walks:
                return at
        is_whole = actor.last is None or any(walk.position == len(body.actions) for walk in walks)
        return None if is_whole else len(self.paths[actor])

    def walks_after(self, walks, step, body, actor):
        return body.moves(new for walk in walks for new in self.stepped(walk, step, body, actor.sort))

    def missing(self, actor, body):
        """Returns the job that the actor should have got, if its whole path is explained by the body: on the way from the last place that
        a walk reaches, the first class of which too many jobs are open decides."""
        walks = body.moves([Walk(0, ())])
        for step in self.paths[actor]:
            walks = self.walks_after(walks, step, body, actor)
        last = max(walks, key=lambda walk: walk.position)
        jobs = Counter(number for _, number in last.open)
        missing = next(number for counts in body.open[last.position + 1:] for number in jobs if jobs[number] > counts[number])
        return next(job for job, number in last.open if number == missing)

    def excess(self, actor, body, most):
        """Returns the class, the number of its open jobs and the limit, if these jobs keep the body from a submit of the class of the
        path's step `most`, and None otherwise."""
        path = self.paths[actor]
        walks = body.moves([Walk(0, ())])
        for step in path[:most]:
            walks = self.walks_after(walks, step, body, actor)
        positions = [walk.position for walk in walks]
        ahead = [place for place, (what, operand) in enumerate(body.actions)
                 if what == "submit" and operand in self.fits(path[most].job) and place >= min(positions)]
        if not ahead:
            return None
        last = max((walk for walk in walks if walk.position <= ahead[0]), key=lambda walk: walk.position)
        jobs = Counter(number for _, number in last.open)
        way = body.open[last.position:ahead[0] + 1]
        number = next(number for counts in way for number in jobs if jobs[number] > counts[number])
        return number, jobs[number], min(counts[number] for counts in way)

    def stepped(self, walk, step, body, sort):
        """Yields the walk after the step, which a submit of the path makes together with the body's next action. A job gets only what its
        body still gets."""
        if step.what == "submit":
            what, operand = body.actions[walk.position] if walk.position < len(body.actions) else ("end", None)
            new = Walk(walk.position + 1, (*walk.open, (step.job, operand)))
            if what == "submit" and operand in self.fits(step.job) and body.has_room(new.position, new.open):
                yield new
            return
        number = dict(walk.open)[step.job]
        if sort == "round" or body.still_gets(walk.position, number):
            yield Walk(walk.position, tuple(one for one in walk.open if one[0] is not step.job))

    def fits(self, job):
        return self.fitting[job]

    # ---- the comparisons

    def all(self):
        """Returns the findings in the order of their lines. Findings without a line come last."""
        self.pools()
        self.jobs()
        self.rounds()
        for line, actor, job in self.foreign[:1]:
            self.finds(GETS, "foreign", line, f"{described(actor)} got {described(job)}, which it did not submit")
        self.voids()
        return [text for _, _, text in sorted(self.findings, key=lambda one: one[:2])]

    def pools(self):
        planned = {pool.name: pool for pool in self.plan.pools}
        for pool in self.plan.pools if self.recording.closed else []:
            if pool.name not in self.recording.pools:
                self.finds(POOLS, ("pool", pool.name), None, f"pool {pool.name}: in the plan and not in the recording")
        for name, lines in self.recording.pools.items():
            if name not in planned:
                self.finds(POOLS, ("pool", name), lines[0].line, f"pool {name}: not in the plan")
                continue
            for sizes in lines:
                for difference in differences(sizes, planned[name], sizes is lines[0]):
                    self.finds(POOLS, ("pool", name, difference), sizes.line, f"pool {name}: {difference}")

    def jobs(self):
        """Finds the classes that each job may have, from the last job to the first, since the classes of the jobs that a job submits must
        be known before."""
        for job in reversed(self.recording.jobs):
            candidates = self.classes_of(job)
            self.fitting[job] = [number for number in candidates if self.walk(job, self.class_bodies[number]) is None]
        for job in self.recording.jobs:
            if not self.classes_of(job):
                self.finds(LABELS, ("class", job.name, job.pool), job.first, f"class {job.name} in pool {job.pool}: not in the plan")
            elif not self.fitting[job]:
                self.strays(("job", job.name, job.pool), job, [self.class_bodies[number] for number in self.classes_of(job)])

    def strays(self, subject, actor, bodies):
        """Reports an actor whose path matches no body, if it is the first of its label, by the bodies that match most of the path. If too
        many open jobs keep some of these from the path's next submit, the first of them gives the reason."""
        path = self.paths[actor]
        most = max(self.walk(actor, body) for body in bodies)
        best = [body for body in bodies if self.walk(actor, body) == most]
        after = f"after {path[most - 1].what} {path[most - 1].job.name}" if most else "at its begin"
        if most == len(path):
            left = self.missing(actor, best[-1])
            failed = sum(act.word in ("timeout", "interrupted") and act.job is left for act in actor.acts)
            asked = f", after {failed} gets of it that timed out or were interrupted" if failed > 1 else ""
            self.finds(PATHS, subject, actor.last, f"{described(actor)} ended without a get of {described(left)}{asked}; its body has a get before its end")
            return
        step = path[most]
        name, pool = step.job.name, step.job.pool
        if step.what == "get":
            did = f"got {name} of pool {pool}; its body has no such get {after}"
        elif not self.classes_of(step.job):
            did = f"submitted {name} to pool {pool} as {step.job}, which belongs to no class of the plan"
        elif not self.fits(step.job):
            did = f"submitted {name} to pool {pool} as {step.job}, whose own path matches no such class"
        elif excess := next(filter(None, (self.excess(actor, body, most) for body in best)), None):
            number, count, limit = excess
            jobs = "1 job" if count == 1 else f"{count} jobs"
            are = "is" if count == 1 else "are"
            did = (f"submitted {name} to pool {pool}; {after}, {jobs} of class {self.plan.classes[number].name} {are} open; "
                   f"its body has only {limit} at some point before its next such submit")
        else:
            did = f"submitted {name} to pool {pool}; its body has no such submit {after}"
        self.finds(PATHS, subject, step.line, f"{described(actor)} {did}")

    def rounds(self):
        """Assigns each round to the first client kind of its family whose body matches the round's path."""
        within, begun = {}, {}
        ends = sorted((one.last, one) for one in self.recording.rounds if one.last is not None)
        kinds = {}
        for one in self.recording.rounds:
            while ends and ends[0][0] < one.first:
                ended = kinds.get(ends.pop(0)[1])
                if ended is not None:
                    within[ended] -= 1
            family = self.family(self.plan.clients, one.name)
            fitting = [kind for kind in family if self.walk(one, self.kind_bodies[kind]) is None]
            if not family:
                self.finds(LABELS, ("kind", one.name), one.first, f"kind {one.name}: not in the plan")
            elif not fitting:
                self.strays(("round", one.name), one, [self.kind_bodies[kind] for kind in family])
            for kind in (fitting or family)[:1]:
                kinds[one] = kind
                within[kind] = within.get(kind, 0) + 1
                begun[kind] = begun.get(kind, 0) + 1
                self.count(one, self.plan.clients[kind], within[kind], begun[kind])

    def count(self, one, client, within, begun):
        if within > client.count:
            self.finds(COUNTS, ("count", client.name), one.first, f"kind {client.name}: {within} at once, count is {client.count}")
        elif not client.repeat and begun > client.count:
            self.finds(COUNTS, ("count", client.name), one.first, f"kind {client.name}: {begun} in all, count is {client.count} and it does not repeat")

    # ---- what invalidates the result, independent of the paths

    def voids(self):
        """Reports the first line of each word that invalidates the result. A get that timed out or was interrupted is not reported here,
        since the comparison of the path decides whether it does."""
        found = [(line, word, void_text(word, what, self.recording.unseen.get(line))) for line, word, what in self.recording.notes
                 if word != "shutdown"]
        for actor in self.paths:
            found += [(act.line, "any", f"{actor} of {sort_of(actor)} {actor.name} called invokeAny in pool {act.pool}")
                      for act in actor.acts if act.word == "any"]
            found += [(act.line, act.word, void_text(act.word, act.job)) for act in actor.acts
                      if act.word in ("cancel", "threw") or act.word == "refused" and not self.is_allowed(act)]
        for line, word, text in sorted(found):
            self.finds(VOIDS, ("void", word), line, f"the answer SAFE does not hold after this: {text}")

    # ---- rejections that the plan allows

    def is_allowed(self, act):
        """Returns whether the plan allows the rejection in a `refused` line."""
        job, handlers = act.job, {sizes.handler for sizes in self.recording.pools[act.job.pool]}
        if not any(pool.name == job.pool and pool.may_reject and not pool.unbounded for pool in self.plan.pools):
            return False
        if handlers == {"caller_runs"}:
            shutdowns = [line for line, word, what in self.recording.notes if (word, what) == ("shutdown", job.pool)]
            was_run = not shutdowns or job.started is not None and act.line < min(shutdowns)
            return was_run and all(own.word == "threw" for own in job.acts)
        return handlers == {"abort"} or handlers == {"discard"} and not self.is_got(job.pool)

    def is_got(self, pool):
        """Returns whether a body of the plan gets a job of the pool."""
        return any(what == "get" and self.plan.pools[self.plan.classes[body.actions[operand][1]].pool].name == pool
                   for body in self.class_bodies + self.kind_bodies for what, operand in body.actions)

    def rejections(self):
        """Returns a line for each pool that rejected jobs as the plan allows, in the order of the plan."""
        pools = Counter(act.job.pool for actor in self.paths for act in actor.acts if act.word == "refused" and self.is_allowed(act))
        return [f"pool {pool.name} rejected {'1 job' if pools[pool.name] == 1 else f'{pools[pool.name]} jobs'}, as the plan allows"
                for pool in self.plan.pools if pools[pool.name]]


def void_text(word, what, jobs=None):
    """Returns what happened, to a job or, with a number of jobs, to jobs of a pool."""
    if word == "unseen":
        return f"{jobs} jobs were run in pool {what} that no line mentions"
    did = {"refused": "was refused", "cancel": "was cancelled", "removed": "was removed from its queue", "threw": "threw an exception"}
    return f"{described(what)} {did[word]}"


def sort_of(actor):
    return "class" if actor.sort == "job" else "kind"


def described(actor):
    return f"{actor} of {sort_of(actor)} {actor.name}" + (f" in pool {actor.pool}" if actor.pool else "")


def differences(sizes, pool, is_first):
    """Yields the differences between a line of the pool and the plan. The number of prestarted threads counts only in the first line."""
    if sizes.core != pool.core:
        yield f"core {sizes.core}, plan {pool.core}"
    # the maximum has no effect over an unbounded queue, unless core threads may time out
    if (not pool.unbounded or pool.core_timeout) and not is_maximum(sizes.max, pool):
        yield f"max {sizes.max}, plan {'unbounded' if pool.max == NO_MAXIMUM else pool.max}"
    if sizes.kind not in kinds_of(pool):
        yield f"queue of another kind ({sizes.kind})"
    if sizes.queue != (MAX_NUMBER if pool.unbounded else pool.queue):
        yield f"queue {sizes.queue}, plan {'unbounded' if pool.unbounded else pool.queue}"
    if sizes.timeout != pool.core_timeout:
        yield "core threads may time out" if sizes.timeout else "core threads never time out, plan core_timeout = true"
    if is_first and sizes.prestarted != (pool.core if pool.prestart else 0):
        yield f"{sizes.prestarted} threads prestarted, plan {pool.core if pool.prestart else 0}"


def is_maximum(recorded, pool):
    """Returns whether a recorded maximum is that of the pool."""
    return recorded > MAX_SIZE if pool.max == NO_MAXIMUM else recorded == pool.max


def kinds_of(pool):
    """Returns the kinds of queue that the pool may have."""
    if pool.unbounded:
        return ("linked",)
    return ("array", "linked") if pool.queue else ("synchronous",)


def compared(plan_text, recording_text):
    """Returns the findings of the comparison of a plan and a recording."""
    return Comparison(read_plan(plan_text), read(recording_text)).all()


def answered(plan_text, recording_text):
    """Returns the lines of the answer, and whether the recording conforms."""
    comparison = Comparison(read_plan(plan_text), read(recording_text))
    found = comparison.all()
    return [*(found or ["conforms"]), *comparison.rejections()], not found


def main():
    lines, conforms = answered(*(Path(word).read_text() for word in sys.argv[1:3]))
    print("\n".join(lines))
    return 0 if conforms else 1


if __name__ == "__main__":
    sys.exit(main())
