#!/usr/bin/env python3
"""Visits every state of every small plan that the built program certifies, and searches for a state that is not safe.

This file implements the machine a second time, from the rules in docs/GUIDE.md alone, without the crates. The check runs `sizing
certify` on each plan of a family. If `certify` finds a certificate, the check tries all lists of events, treating states that differ
only in job names as equal. No submit may be refused, no set of jobs may wait only for its own members, and while a job is
unfinished, an event of some job or pool must be possible. The check also compares this machine with `sizing replay` on a random list
of events of each plan, whether or not it is certified.

The program is crates/sizing/out/sizing, or the one that the environment variable SIZING names.

Exit status: 0 if all states are safe and all replays agree, 1 if not, 2 if there is no program.
"""

import itertools
import os
import random
import subprocess
import sys
from collections import Counter, namedtuple
from pathlib import Path

from no_sizes import grows

BUILT = Path(__file__).resolve().parent.parent / "crates" / "sizing" / "out" / "sizing"
# The maximum number of states of a plan that are visited. A plan with more states is counted separately.
MOST_STATES = 20_000
# The same for a plan in which an unbounded queue may grow forever, so that it has infinitely many states.
MOST_STATES_OF_A_GROWING_QUEUE = 1_000
STEPS_OF_A_WALK = 40
SECONDS = 120

# The queue of a pool whose queue is unbounded. The number has no effect.
NO_CAPACITY = 1_000_000

# The maximum of a pool that has none: its core threads may time out, its queue is unbounded, and the plan gives no maximum.
NO_MAXIMUM = 268_435_455

Pool = namedtuple("Pool", "name core max queue prestart may_reject unbounded core_timeout", defaults=[False, False, False])
Class = namedtuple("Class", "name pool body")
Client = namedtuple("Client", "name count repeat body")
Plan = namedtuple("Plan", "pools classes clients")

# An action is ("work", units), ("submit", class) or ("get", position of its submit). The phase of a job is QUEUED, DONE or a position.
QUEUED, DONE = "queued", "done"
# The answers of a pool to a submit, besides QUEUED.
STARTED, REFUSED = "started", "refused"
# A job that a later event can name. Its maker is ("client", number), ("job", number), or None if no actor can get the job any longer.
Job = namedtuple("Job", "kind maker slot phase")
# A state: the idle workers and the queue of each pool, the position of each client, and the jobs with their numbers, in the order of
# their creation. The last two are empty if each submit is one event (java_steps.py).
State = namedtuple("State", "idle queues clients jobs calls looking", defaults=[(), ()])


class Machine:
    """The machine of a plan: its initial state, and the effect of each event."""

    def __init__(self, plan):
        self.plan = plan
        self.kinds = [kind for kind, client in enumerate(plan.clients) for _ in range(client.count)]

    def start(self):
        idle = tuple(pool.core if pool.prestart else 0 for pool in self.plan.pools)
        return State(idle, ((),) * len(idle), (0,) * len(self.kinds), ())

    def events(self, state):
        """Yields all events that may be possible, each as the words of its line in a replay."""
        yield from (("client", number) for number in range(len(self.kinds)))
        yield from (("job", number) for number, _ in state.jobs)
        yield from ((word, pool) for word in ("take", "retire") for pool in range(len(self.plan.pools)))

    def threads(self, state, pool):
        return state.idle[pool] + sum(1 for _, job in state.jobs if at_work(job) and self.pool_of(job) == pool)

    def has_spare_thread(self, state, number):
        """Returns whether the pool has more threads than it keeps: core threads or, if these may time out, one while a job is queued."""
        pool, threads = self.plan.pools[number], self.threads(state, number)
        return threads > pool.core or pool.core_timeout and (threads > 1 or not state.queues[number])

    def pool_of(self, job):
        return self.plan.classes[job.kind].pool

    def step(self, state, event, new_number):
        """Returns the state after the event and the event's outcome in a replay, or None if the event is not possible."""
        word, number = event
        if word == "take":
            if not state.idle[number] or not state.queues[number]:
                return None
            taken = state.queues[number][0]
            jobs = changed(state.jobs, taken, phase=0)
            queues = put(state.queues, number, state.queues[number][1:])
            return state._replace(idle=less_at(state.idle, number), queues=queues, jobs=jobs), f"took job {taken}"
        if word == "retire":
            pool = self.plan.pools[number]
            if not self.has_spare_thread(state, number) or not has_spare_worker(pool, state, number):
                return None
            return state._replace(idle=less_at(state.idle, number)), "retired"
        return self.act(state, event, new_number)

    def act(self, state, actor, new_number):
        word, number = actor
        if word == "client":
            position, client = state.clients[number], self.plan.clients[self.kinds[number]]
            body = client.body
        else:
            job = dict(state.jobs).get(number)
            if job is None or not at_work(job):
                return None
            position, body = job.phase, self.plan.classes[job.kind].body
        if position < len(body):
            return self.action(state, actor, position, body[position], new_number)
        if word == "job":
            return self.finish(state, number), f"finished job {number}"
        return (state._replace(clients=put(state.clients, number, 0)), "looped") if client.repeat else None

    def action(self, state, actor, position, action, new_number):
        what, operand = action
        if what == "work":
            return self.moved(state, actor, position + 1), f"worked {operand}"
        if what == "get":
            child = latest(state, actor, operand)
            if child is None or dict(state.jobs)[child].phase != DONE:
                return None
            jobs = tuple(entry for entry in state.jobs if entry[0] != child)
            return self.moved(state._replace(jobs=jobs), actor, position + 1), f"got job {child}"
        return self.submit(state, actor, position, operand, new_number)

    def submit(self, state, actor, position, kind, number):
        of = self.plan.classes[kind].pool
        pool, threads, room = self.plan.pools[of], self.threads(state, of), self.has_room(state, of)
        if threads < pool.core or (not room and threads < pool.max):
            return self.answered(state, actor, position, kind, number, STARTED)
        return self.answered(state, actor, position, kind, number, QUEUED if room else REFUSED)

    def has_room(self, state, of):
        pool = self.plan.pools[of]
        return pool.unbounded or len(state.queues[of]) < queue_limit(pool.queue, state.idle[of])

    def answered(self, state, actor, position, kind, number, answer):
        """Returns the state after the job's pool gave this answer to a submit, and the outcome."""
        of = self.plan.classes[kind].pool
        pool = self.plan.pools[of]
        if answer == STARTED:
            phase, queues, outcome = 0, state.queues, f"started job {number}"
        elif answer == QUEUED:
            phase, queues, outcome = QUEUED, put(state.queues, of, state.queues[of] + (number,)), f"queued job {number}"
        elif pool.may_reject:
            phase, queues, outcome = DONE, state.queues, f"rejected by {pool.name} as job {number}"
        else:
            return state, f"refused by {pool.name}"
        old = latest(state, actor, position)
        kept = tuple(entry for entry in state.jobs if not (entry[0] == old and entry[1].phase == DONE))
        jobs = kept + ((number, Job(kind, actor, position, phase)),)
        return self.moved(state._replace(queues=queues, jobs=jobs), actor, position + 1), outcome

    def moved(self, state, actor, position):
        word, number = actor
        if word == "client":
            return state._replace(clients=put(state.clients, number, position))
        return state._replace(jobs=changed(state.jobs, number, phase=position))

    def finish(self, state, number):
        job = dict(state.jobs)[number]
        asked_for = job.maker is not None and latest(state, job.maker, job.slot) == number
        of = self.pool_of(job)
        jobs = []
        for other, child in state.jobs:
            if other == number:
                if asked_for:
                    jobs.append((number, job._replace(phase=DONE)))
            elif child.maker != ("job", number):
                jobs.append((other, child))
            elif child.phase != DONE:
                # no actor can get this job any longer, but the job continues
                jobs.append((other, child._replace(maker=None)))
        return state._replace(idle=put(state.idle, of, state.idle[of] + 1), jobs=tuple(jobs))

    def waiting(self, state):
        """Returns the greatest set of unfinished jobs that wait only for each other."""
        jobs = dict(state.jobs)
        members = {number for number, job in state.jobs if job.phase != DONE}
        while True:
            left = {number for number in members if self.waits(state, jobs, number, members)}
            if left == members:
                return members
            members = left

    def waits(self, state, jobs, number, members):
        job = jobs[number]
        if job.phase == QUEUED:
            of = self.pool_of(job)
            busy = {other for other, one in state.jobs if at_work(one) and self.pool_of(one) == of}
            return not state.idle[of] and busy <= members
        body = self.plan.classes[job.kind].body
        if job.phase == len(body) or body[job.phase][0] != "get":
            return False
        return latest(state, ("job", number), body[job.phase][1]) in members


def queue_limit(capacity, idle):
    """Returns the maximum number of queued jobs. A queue of 0 is a `SynchronousQueue`: each idle worker can have one job, which it has
    not taken yet."""
    return capacity or idle


def has_spare_worker(pool, state, number):
    """Returns whether some worker of the pool is idle, and was handed no job."""
    idle = state.idle[number]
    return idle > 0 and (pool.unbounded or len(state.queues[number]) <= queue_limit(pool.queue, idle - 1))


def without_bound(pool):
    """Returns the pool with an unbounded queue. Unless core threads may time out, no thread above core ever starts over such a queue, so
    its maximum is core."""
    most = pool.max if pool.core_timeout else pool.core
    return pool._replace(max=most, queue=NO_CAPACITY, unbounded=True)


def at_work(job):
    return job.phase not in (QUEUED, DONE)


def latest(state, actor, slot):
    return max((number for number, job in state.jobs if job.maker == actor and job.slot == slot), default=None)


def put(row, place, value):
    return row[:place] + (value,) + row[place + 1 :]


def less_at(row, place):
    return put(row, place, row[place] - 1)


def changed(jobs, number, phase):
    return tuple((other, job._replace(phase=phase)) if other == number else (other, job) for other, job in jobs)


def renamed(state):
    """Returns the state with its jobs numbered from 0, in the same order. This does not change which events are possible."""
    names = {number: name for name, (number, _) in enumerate(state.jobs)}

    def maker(job):
        return ("job", names[job.maker[1]]) if job.maker and job.maker[0] == "job" else job.maker

    queues = tuple(tuple(names[number] for number in queue) for queue in state.queues)
    calls = tuple(sorted(((word, names[number] if word == "job" else number), step) for (word, number), step in state.calls))
    return state._replace(
        queues=queues, jobs=tuple((names[number], job._replace(maker=maker(job))) for number, job in state.jobs), calls=calls
    )


def explored(plan, machine=None):
    """Visits the states of a plan. Returns their number, the fault of a bad state or None, and whether there are too many states."""
    machine = machine or Machine(plan)
    most = min(MOST_STATES, MOST_STATES_OF_A_GROWING_QUEUE if grows(plan) else MOST_STATES)
    first = renamed(machine.start())
    seen, front = {first}, [first]
    while front:
        if len(seen) > most:
            return len(seen), None, True
        state = front.pop()
        goes_on = False
        for event in machine.events(state):
            done = machine.step(state, event, len(state.jobs))
            if done is None:
                continue
            after, outcome = done
            if outcome.startswith("refused"):
                return len(seen), f"{outcome} in {state}", False
            goes_on = goes_on or event[0] in ("job", "take", "leave", "spare")
            after = renamed(after)
            if after not in seen:
                seen.add(after)
                front.append(after)
        unfinished = any(job.phase != DONE for _, job in state.jobs)
        if machine.waiting(state):
            return len(seen), f"jobs wait only for each other in {state}", False
        if unfinished and not goes_on:
            return len(seen), f"nothing goes on in {state}", False
    return len(seen), None, False


# ---- the plans


def bodies(text):
    """Parses a body such as `a+ -`: `a+` is a submit of class a that is got later, `a` is a submit that is never got, and `-` is the get
    of the oldest open submit."""
    actions, open_submits = [], []
    for word in text.split():
        if word == "-":
            actions.append(("get", open_submits.pop(0)))
        elif word.isdigit():
            actions.append(("work", int(word)))
        else:
            if word.endswith("+"):
                open_submits.append(len(actions))
            actions.append(("submit", "abcd".index(word[0])))
    return actions


def plans():
    """Yields the plans of the family: plans of one pool with one or two classes, and plans of two pools that call each other."""
    sizes = [(1, 1), (1, 2), (2, 2)]
    pools = [Pool("p", core, top, queue, first) for core, top in sizes for queue in (1, 2, 3) for first in (False, True)]
    pools += [Pool("p", core, top, 0, first, True) for core, top in sizes for first in (False, True)]
    yield from plans_of_one(pools)
    pairs = [(Pool("p", *one, two, False), Pool("q", *other, three, False)) for one in sizes for other in sizes for two in (1, 2) for three in (1, 2)]
    # None of the two pools may reject jobs, or one of them, with the queue above or with a queue of 0.
    rejections = [(None, False), *itertools.product((0, 1), (False, True))]
    for pair, (rejecting, is_synchronous), repeat in itertools.product(pairs, rejections, (False, True)):
        both = [with_rejections(pool, is_synchronous) if number == rejecting else pool for number, pool in enumerate(pair)]
        yield from plans_of_two(both, repeat, rejecting is not None)
    unbounded = [without_bound(Pool("p", core, core, 1, first)) for core in (1, 2) for first in (False, True)]
    yield from plans_of_one(unbounded)
    others = [pool for pool in pools if pool.queue < 2]
    for both, repeat in itertools.product([*itertools.product(unbounded, [*unbounded, *others]), *itertools.product(others, unbounded)], (False, True)):
        yield from plans_of_two([pool._replace(name=name) for pool, name in zip(both, "pq")], repeat, True)
    yield from plans_with_timeouts()


def plans_with_timeouts():
    """Yields plans in which core threads of the pool, or of one of two pools or of both, may time out."""
    bounded = [Pool("p", *sizes, first, core_timeout=True) for sizes in ((1, 1, 1), (1, 2, 1), (2, 2, 3)) for first in (False, True)]
    synchronous = Pool("p", 1, 2, 0, False, True, core_timeout=True)
    unbounded = [
        without_bound(Pool("p", core, most, 1, first, core_timeout=True))
        for core, most, first in ((1, 1, False), (1, 2, True), (2, 2, True), (2, NO_MAXIMUM, False))
    ]
    timed = [*bounded, synchronous, *unbounded]
    yield from plans_of_one(timed)
    others = [Pool("p", 1, 2, 1, False), Pool("p", 2, 2, 3, True), without_bound(Pool("p", 2, 2, 1, False))]
    few = [bounded[2], bounded[5], *unbounded[1:]]
    for both, repeat in itertools.product([*itertools.product(few, [*few, *others]), *itertools.product(others, few)], (False, True)):
        yield from plans_of_two([pool._replace(name=name) for pool, name in zip(both, "pq")], repeat, True)


def plans_of_one(pools):
    """Yields plans of one pool, each of these."""
    asks = ["a+ -", "a", "a+ a+ - -", "a a+ -"]
    for pool, body, ask, count, repeat in itertools.product(pools, ["1", ""], asks, (1, 2), (False, True)):
        yield Plan([pool], [Class("a", 0, bodies(body))], [Client("c", count, repeat, bodies(ask))])
    outers = ["b+ -", "b+ b+ - -", "b", "1 b+ - b+ -", "b+ 1 -"]
    for pool, outer, ask, count, repeat in itertools.product(pools, outers, ["a+ -", "a"], (1, 2), (False, True)):
        classes = [Class("a", 0, bodies(outer)), Class("b", 0, bodies("1"))]
        yield Plan([pool], classes, [Client("c", count, repeat, bodies(ask))])


def plans_of_two(both, repeat, has_lost_jobs):
    """Yields plans of two pools that call each other. In the last one, if it is wanted, clients never get a job."""
    there_and_back = [Class("a", 0, bodies("b+ -")), Class("b", 1, bodies("1")), Class("c", 1, bodies("d+ -")), Class("d", 0, bodies("1"))]
    yield Plan(both, there_and_back, [Client("u", 1, repeat, bodies("a+ -")), Client("w", 1, repeat, bodies("c+ -"))])
    chain = [Class("a", 0, bodies("b+ -")), Class("b", 1, bodies("c+ -")), Class("c", 0, bodies("1"))]
    yield Plan(both, chain, [Client("u", 1, repeat, bodies("a+ -"))])
    yield Plan(both, chain[:2] + [Class("c", 1, bodies("1"))], [Client("u", 2, repeat, bodies("a+ -"))])
    if has_lost_jobs:
        yield Plan(both, chain, [Client("u", 2, repeat, bodies("a")), Client("w", 1, repeat, bodies("b+ -"))])


def with_rejections(pool, is_synchronous):
    return pool._replace(may_reject=True, queue=0 if is_synchronous else pool.queue)


def text_of(plan):
    lines = []
    for pool in plan.pools:
        lines += ["[[pool]]", f'name = "{pool.name}"', *size_lines(pool, pool.max), *flag_lines(pool)]
    for one in plan.classes:
        lines += ["[[class]]", f'name = "{one.name}"', f'pool = "{plan.pools[one.pool].name}"', f"body = {body_text(plan, one.body)}"]
    for client in plan.clients:
        lines += ["[[client]]", f'name = "{client.name}"', f"count = {client.count}", f"repeat = {str(client.repeat).lower()}"]
        lines += [f"body = {body_text(plan, client.body)}"]
    return "\n".join(lines) + "\n"


def size_lines(pool, most):
    """Returns the lines of a plan with the sizes of a pool that has at most this number of threads. Beside an unbounded queue the maximum
    has no effect unless core threads may time out, so for an even core it is above core, and otherwise it is unbounded too."""
    queue = pool.queue
    if pool.unbounded:
        queue = '"unbounded"'
        if not pool.core_timeout:
            most = '"unbounded"' if pool.core % 2 else pool.core + 7
        elif most == NO_MAXIMUM:
            most = '"unbounded"'
    return [f"core = {pool.core}", f"max = {most}", f"queue = {queue}"]


def flag_lines(pool):
    """Returns the lines of a plan with the keys of a pool that are true."""
    return [f"{key} = true" for key in ("prestart", "core_timeout", "may_reject") if getattr(pool, key)]


def body_text(plan, body):
    got = {operand for what, operand in body if what == "get"}
    words = []
    for position, (what, operand) in enumerate(body):
        if what == "submit":
            words.append(f"submit {plan.classes[operand].name}" + (f" as s{position}" if position in got else ""))
        else:
            words.append(f"get s{operand}" if what == "get" else f"work {operand}")
    return "[" + ", ".join(f'"{word}"' for word in words) + "]"


# ---- the program


def run(program, command, text, *options):
    words = [program, command, *options]
    done = subprocess.run(words, input=text.encode(), capture_output=True, timeout=SECONDS, check=False)
    return done.returncode, done.stdout.decode()


def walk(plan, draw):
    """Returns random events, of which only the last may be impossible, and the expected answer of a replay of them."""
    machine, made = Machine(plan), 0
    state, lines, answers = machine.start(), [], []
    for number in range(1, STEPS_OF_A_WALK + 1):
        word, operand = event = draw.choice(list(machine.events(state)))
        done = machine.step(state, event, made)
        if done is None and draw.random() < 0.9:
            continue
        lines.append(f"{word} {plan.pools[operand].name if word in ('take', 'retire') else operand}")
        if done is None:
            answers.append("not possible")
            break
        state, outcome = done
        made += outcome.startswith(("started", "queued", "rejected"))
        answers.append(outcome)
    counts = counts_text(plan, *(sum(outcome.startswith(word) for outcome in answers) for word in ("refused", "rejected")),
                         sum(job.phase != DONE for _, job in state.jobs))
    text = "".join(f"{number}: {outcome}\n" for number, outcome in enumerate(answers, 1))
    return "\n".join(lines), f"{text}{counts}\n"


def counts_text(plan, refused, rejected, unfinished):
    """Returns the last line of a replay."""
    rejections = f"rejected {rejected}, " if any(pool.may_reject for pool in plan.pools) else ""
    return f"refusals {refused}, {rejections}unfinished {unfinished}"


def main():
    program = Path(os.environ.get("SIZING") or BUILT).resolve()
    if not os.access(program, os.X_OK) or not program.is_file():
        print(f"there is no program at {program}: run `make program` at the top of the repository", file=sys.stderr)
        return 2
    draw = random.Random(1)
    count, wrong = Counter(), []
    for plan in plans():
        text = text_of(plan)
        count["plans"] += 1
        events, wanted = walk(plan, draw)
        if run(program, "replay", f"{text}%%\n{events}")[1] != wanted:
            wrong.append(f"a replay differs:\n{text}%%\n{events}\nexpected:\n{wanted}")
        status, answer = run(program, "certify", text)
        if status == 0 and run(program, "check", answer)[0] == 0:
            states, found, cut = explored(plan)
            count["certified"] += 1
            count["states"] += states
            count["cut"] += cut
            if found:
                wrong.append(f"certified, but {found}:\n{text}")
        elif status == 1:
            states, found, cut = explored(plan)
            count["unsafe" if found else "undecided" if cut else "safe, but not certified"] += 1
        else:
            wrong.append(f"certify ended with {status}:\n{text}{answer}")
    for message in wrong[:5]:
        print(message)
    print(", ".join(f"{what} {number}" for what, number in count.items()))
    print(f"{len(wrong)} wrong")
    return 1 if wrong else 0


if __name__ == "__main__":
    sys.exit(main())
