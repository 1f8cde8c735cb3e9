"""Compares the answers to lists of events of the executors, of `sizing replay`, and of the machine in machine.py."""

import random
from collections import Counter
from pathlib import Path

from java_text import MORE_THREADS, case
from machine import NOT_POSSIBLE, Machine
from paths import on_the_paths, plan_of_paths
from read_plans import read_plan
from small_plans import text_of
from walks import plan_by_chance, walk

EXAMPLES = Path(__file__).resolve().parent.parent.parent / "examples"
KINDS = ("array", "linked")
LISTS = 1000
# The number of lists for plans with pools that may reject jobs.
REJECTING = 500
# The number of lists for plans with unbounded queues.
UNBOUNDED = 300
# The number of lists for plans with pools whose core threads may time out.
TIMED = 300
# The number of plans on which each deliberate error is tried.
SLIPPED = 100
# The number of jobs that never finish after the events of an example, if all jobs and threads continue and no client acts. It is derived
# by hand, and is 0 for all other examples.
NEVER_FINISH = {
    "cross-pools": 4, "nested-one-worker": 2, "nested-unused-max": 2, "report-fan-out": 8, "stuck-by-a-dropped-get": 4,
    "there-and-back": 3, "fixed-pool-unbounded": 8, "nested-core-timeout": 2, "spring-boot-nested": 2,
}
PART_LEFT_OUT = 0.3


def part(tools):
    chance, rejecting, unbounded, timed = (random.Random(seed) for seed in (1, 2, 3, 4))
    return [*examples(tools), *lists(tools, chance, "random replays"), *slips(tools, chance),
            *lists(tools, rejecting, "random replays with pools that may reject jobs", REJECTING, rejecting=True), *slips_of_rejections(tools, rejecting),
            *lists(tools, unbounded, "random replays with unbounded queues", UNBOUNDED, unbounded=True), *slips_of_unbounded(tools, unbounded),
            *lists(tools, timed, "random replays with core timeouts", TIMED, timed=True), *slips_of_timed(tools, timed)]


def numbered(answers):
    return [f"{number}: {printed}" for number, printed in enumerate(answers, 1)]


def on_executors(tools, cases):
    """Runs the cases on executors, and returns the answers to each case."""
    printed, found = tools.run_java("Replays", given="".join(cases)), []
    for _ in cases:
        end = printed.index("end")
        found.append(printed[:end])
        printed = printed[end + 1 :]
    return found


# ---- the examples


def examples(tools):
    wrong, cases, wanted = [], [], []
    for events in sorted(EXAMPLES.glob("*.events")):
        plan = events.with_suffix(".toml").read_text()
        stored = events.with_suffix(".replay").read_text().splitlines()[:-1]
        answer = tools.sizing("replay", f"{plan}%%\n{events.read_text()}")[1].splitlines()
        if answer != stored:
            wrong.append(f"replays, {events.stem}: sizing replay differs from {events.stem}.replay")
        for kind in KINDS:
            cases.append(case(read_plan(plan), kind, False, [*events.read_text().splitlines(), "counts", "run free 0"]))
            wanted.append((events.stem, kind, answer, NEVER_FINISH.get(events.stem, 0)))
    answers = 0
    for (name, kind, answer, never), printed in zip(wanted, on_executors(tools, cases)):
        steps = len(answer)
        answers += steps - 1
        if printed[:steps] != answer or not printed[-1].endswith(f"unfinished {never}"):
            wrong.append(f"replays, {name}, {kind}: {printed}, expected {answer} and in the end unfinished {never}")
    print(f"replays of examples: {len(wanted)}, answers {answers}, with {len(wrong)} wrong", flush=True)
    return wrong


# ---- random lists


class List:
    """A random list of events for a plan, with the expected answers."""

    def __init__(self, chance, plan, machine_of=Machine):
        self.plan, self.kind = plan, chance.choice(KINDS)
        self.in_steps, self.leaving_out = chance.random() < 0.5, chance.random() < 0.5
        self.machine, self.events, self.answers = walk(plan, chance, self.in_steps, self.leaving_out, machine_of)
        self.wanted = numbered(self.answers) + self.machine.counts()

    def case(self, plan=None, *more):
        return case(plan or self.plan, self.kind, self.in_steps, [*self.events, "counts", *more])

    def of_program(self):
        """Returns a plan and events that `sizing replay` can replay, with the expected answers, or None if it cannot replay this list."""
        if self.in_steps:
            return None
        plan = plan_of_paths(self.machine) if self.leaving_out else self.plan
        if plan is None:
            return None
        events, answers = on_the_paths(self.events, self.answers) if self.leaving_out else (self.events, self.answers)
        return plan, events, numbered(answers) + self.wanted[len(self.answers) : len(self.answers) + 1]


def lists(tools, chance, name, number=LISTS, **kinds):
    wrong, count, found, certified = [], Counter(), [], []
    for _ in range(number):
        one = List(chance, plan_by_chance(chance, **kinds))
        found.append(one)
        status, _ = tools.sizing("certify", text_of(one.plan))
        certified.append(status == 0)
        shown = one.of_program()
        if shown:
            plan, events, answers = shown
            printed = tools.sizing("replay", f"{text_of(plan)}%%\n" + "\n".join(events))[1].splitlines()
            count["by sizing replay"] += 1
            count["of these with parts left out"] += "left out" in one.answers
            if printed != answers:
                wrong.append(f"replays, sizing replay: {printed}, expected {answers} for\n{text_of(plan)}%%\n" + "\n".join(events))
    cases = [one.case(None, f"run free {PART_LEFT_OUT * one.leaving_out}") if sure else one.case() for one, sure in zip(found, certified)]
    for one, sure, printed in zip(found, certified, on_executors(tools, cases)):
        count["on executors"] += 1
        count["in steps"] += one.in_steps
        count["parts left out"] += "left out" in one.answers
        count["prestarted"] += any(pool.prestart for pool in one.plan.pools)
        count["answers"] += len(one.answers)
        count["refused"] += sum(printed.startswith("refused") for printed in one.answers)
        count["rejected"] += one.machine.rejections
        count["with a queue of 0"] += any(not pool.queue for pool in one.plan.pools)
        count["with an unbounded queue"] += any(pool.unbounded for pool in one.plan.pools)
        count["whose core threads may time out"] += any(pool.core_timeout for pool in one.plan.pools)
        count["stuck yes"] += one.answers.count("stuck yes")
        count["retired"] += one.answers.count("retired")
        count["certified"] += sure
        wanted = one.wanted + (["then refusals 0, unfinished 0"] if sure else [])
        if printed != wanted:
            wrong.append(f"replays, {one.kind}, in steps {one.in_steps}: {printed}, expected {wanted} for\n{one.case()}")
    print(f"{name}: " + ", ".join(f"{what} {number}" for what, number in count.items()) + f", with {len(wrong)} wrong", flush=True)
    return wrong


# ---- deliberate errors


class AsksTheQueueAgain(Machine):
    """A machine with a deliberate error: a submit that asks for a thread queues its job if the queue has room again."""

    def submit(self, actor, kind):
        pool = self.plan.classes[kind].pool
        if actor.call == "found the queue full" and len(self.queues[pool]) < self.plan.pools[pool].queue:
            return self.makes(actor, kind, pool, "queued")
        return super().submit(actor, kind)


class IdleThreadsAreGiven(Machine):
    """A machine with a deliberate error: a submit gives its job to an idle thread."""

    def submit(self, actor, kind):
        pool = self.plan.classes[kind].pool
        if actor.call is None and self.idle[pool]:
            self.idle[pool] -= 1
            return self.makes(actor, kind, pool, "running")
        return super().submit(actor, kind)


def with_pools(plan, change):
    return plan._replace(pools=[pool._replace(**change(pool)) for pool in plan.pools])


POOL_SLIPS = {
    "a queue one longer": lambda pool: {"queue": pool.queue + 1},
    "a maximum one higher": lambda pool: {"max": pool.max + 1},
    "a core one higher": lambda pool: {"core": pool.core + 1, "max": max(pool.max, pool.core + 1)},
    "prestarted the other way": lambda pool: {"prestart": not pool.prestart},
}
RULE_SLIPS = {"an ask looks at the queue again": AsksTheQueueAgain, "idle threads are given jobs": IdleThreadsAreGiven}


def slips(tools, chance):
    """Makes each deliberate error in the executors' pools or in the machine, and checks that it is found."""
    found = Counter()
    some = [List(chance, plan_by_chance(chance)) for _ in range(SLIPPED)]
    for name, change in POOL_SLIPS.items():
        printed = on_executors(tools, [one.case(with_pools(one.plan, change)) for one in some])
        found[name] = sum(printed != one.wanted for one, printed in zip(some, printed))
        shown = [one.of_program() for one in some]
        answers = [tools.sizing("replay", f"{text_of(with_pools(plan, change))}%%\n" + "\n".join(events))[1].splitlines()
                   for plan, events, _ in filter(None, shown)]
        found[name + ", in sizing's plan"] = sum(printed != wanted for printed, (_, _, wanted) in zip(answers, filter(None, shown)))
    printed = on_executors(tools, [case(one.plan, one.kind, one.in_steps, [event.removeprefix("leave ") for event in one.events] + ["counts"]) for one in some])
    found["what is left out is submitted"] = sum(printed != one.wanted for one, printed in zip(some, printed))
    printed = on_executors(tools, [one.case() for one in some])
    for name, rule in RULE_SLIPS.items():
        found[name] = sum(by_rule(rule, one) != answers for one, answers in zip(some, printed))
    print(f"deliberate errors, by the number of {SLIPPED} lists that find them: " + ", ".join(f"'{name}' {number}" for name, number in found.items()), flush=True)
    return [f"replays: the deliberate error '{name}' is not found" for name, number in found.items() if not number]


class NeverHandsOver(Machine):
    """A machine with a deliberate error: an offer to a queue of 0 fails although a thread is idle."""

    def limit(self, pool, idle):
        return self.plan.pools[pool].queue


class EndsWithAJob(Machine):
    """A machine with a deliberate error: a thread above core ends although it was handed a job."""

    def moves(self):
        ending = [f"retire {one.name}" for pool, one in enumerate(self.plan.pools) if self.idle[pool] and self.threads(pool) > one.core]
        return super().moves() + ending


def slips_of_rejections(tools, chance):
    """Makes each deliberate error that concerns pools that may reject jobs, in the executors' pools or in the machine, and checks that it
    is found."""
    some = [List(chance, plan_by_chance(chance, True)) for _ in range(SLIPPED)]
    printed = on_executors(tools, [one.case(with_pools(one.plan, lambda pool: {"may_reject": False})) for one in some])
    found = {"a pool refuses what it may reject":
             sum(printed[: len(one.answers)] != one.wanted[: len(one.answers)] for one, printed in zip(some, printed))}
    printed = on_executors(tools, [one.case(with_pools(one.plan, lambda pool: {"queue": pool.queue or 1})) for one in some])
    found["a queue of 1 in place of 0"] = sum(printed != one.wanted for one, printed in zip(some, printed))
    for name, rule in (("no job is handed over", NeverHandsOver), ("a thread ends with a job", EndsWithAJob)):
        some = [List(chance, plan_by_chance(chance, True), rule) for _ in range(SLIPPED)]
        found[name] = sum(printed != one.wanted for one, printed in zip(some, on_executors(tools, [one.case() for one in some])))
    print(f"deliberate errors, by the number of {SLIPPED} lists that find them: " + ", ".join(f"'{name}' {number}" for name, number in found.items()), flush=True)
    return [f"replays: the deliberate error '{name}' is not found" for name, number in found.items() if not number]


class StartsThreadsFirst(Machine):
    """A machine with a deliberate error: threads above core start over an unbounded queue, up to the maximum of the executor."""

    def submit(self, actor, kind):
        pool = self.plan.classes[kind].pool
        sizes = self.plan.pools[pool]
        if actor.call is None and sizes.unbounded and self.threads(pool) < sizes.core + MORE_THREADS:
            return self.makes(actor, kind, pool, "running")
        return super().submit(actor, kind)


def slips_of_unbounded(tools, chance):
    """Makes each deliberate error that concerns unbounded queues, in the executors' pools, in the plan of `sizing replay` or in the machine,
    and checks that it is found."""
    some = [List(chance, plan_by_chance(chance, unbounded=True)) for _ in range(SLIPPED)]

    def bounded(pool):
        return {"queue": 2, "unbounded": False} if pool.unbounded else {}

    printed = on_executors(tools, [one.case(with_pools(one.plan, bounded)) for one in some])
    found = {"a queue of 2 in place of an unbounded one": sum(printed != one.wanted for one, printed in zip(some, printed))}
    shown = list(filter(None, (one.of_program() for one in some)))
    answers = [tools.sizing("replay", f"{text_of(with_pools(plan, bounded))}%%\n" + "\n".join(events))[1].splitlines() for plan, events, _ in shown]
    found["the same, in sizing's plan"] = sum(printed != wanted for printed, (_, _, wanted) in zip(answers, shown))
    printed = on_executors(tools, [one.case() for one in some])
    found["threads above core start"] = sum(by_rule(StartsThreadsFirst, one) != answers for one, answers in zip(some, printed))
    print(f"deliberate errors, by the number of {SLIPPED} lists that find them: " + ", ".join(f"'{name}' {number}" for name, number in found.items()), flush=True)
    return [f"replays: the deliberate error '{name}' is not found" for name, number in found.items() if not number]


class LastThreadEnds(Machine):
    """A machine with a deliberate error: if core threads may time out, the last thread ends although a job is queued."""

    def can_spare(self, pool):
        return self.plan.pools[pool].core_timeout or super().can_spare(pool)


class StartsNoThread(Machine):
    """A machine with a deliberate error: a submit whose offer succeeded does not look whether there is a thread."""

    def look(self, pool):
        return


def slips_of_timed(tools, chance):
    """Makes each deliberate error that concerns core timeouts, in the executors' pools, in the plan of `sizing replay` or in the machine, and
    checks that it is found."""
    some = [List(chance, plan_by_chance(chance, timed=True)) for _ in range(SLIPPED)]

    def untimed(pool):
        return {"core_timeout": False, "max": pool.core if pool.unbounded else pool.max}

    printed = on_executors(tools, [one.case(with_pools(one.plan, untimed)) for one in some])
    found = {"core threads never time out": sum(printed != one.wanted for one, printed in zip(some, printed))}
    shown = list(filter(None, (one.of_program() for one in some)))
    answers = [tools.sizing("replay", f"{text_of(with_pools(plan, untimed))}%%\n" + "\n".join(events))[1].splitlines() for plan, events, _ in shown]
    found["the same, in sizing's plan"] = sum(printed != wanted for printed, (_, _, wanted) in zip(answers, shown))
    for name, rule in (("the last thread ends", LastThreadEnds), ("no thread starts after an offer", StartsNoThread)):
        wrong = [List(chance, plan_by_chance(chance, timed=True), rule) for _ in range(SLIPPED)]
        found[name] = sum(printed != one.wanted for one, printed in zip(wrong, on_executors(tools, [one.case() for one in wrong])))
    print(f"deliberate errors, by the number of {SLIPPED} lists that find them: " + ", ".join(f"'{name}' {number}" for name, number in found.items()), flush=True)
    return [f"replays: the deliberate error '{name}' is not found" for name, number in found.items() if not number]


def by_rule(rule, one):
    machine, answers = rule(one.plan, one.in_steps), []
    for event in one.events:
        answers.append(machine.answer(event))
        if answers[-1] == NOT_POSSIBLE:
            break
    return numbered(answers) + machine.counts()
