"""Random plans, and random lists of events for them."""

import sys
from pathlib import Path

sys.path.insert(0, str(Path(__file__).resolve().parent.parent))

from found_certs import body_by_chance
from machine import NOT_POSSIBLE, Machine
from small_plans import NO_MAXIMUM, Class, Client, Plan, Pool, without_bound

MOST_JOBS = 60
# The weights with which the next event is chosen at random among the possible events, by the kind of event.
WEIGHTS = {"client": 4, "job": 4, "take": 2, "retire": 1, "leave": 2}


def plan_by_chance(chance, rejecting=False, unbounded=False, timed=False):
    """Returns a random plan. If it is rejecting, about two thirds of its pools may reject jobs, and some of these have a queue of 0. If it
    is unbounded, about two thirds of its pools have an unbounded queue. If it is timed, core threads of about three quarters of its pools
    may time out; some of these pools may reject jobs or have an unbounded queue, and some of the latter have no maximum."""
    pools = []
    for number in range(chance.choice([1, 1, 2, 3])):
        core = chance.choice([1, 1, 2, 3])
        pool = Pool("pqr"[number], core, core + chance.choice([0, 1, 2]), chance.choice([1, 1, 2, 3]), chance.random() < 0.3,
                    rejecting and chance.random() < 0.67)
        pool = with_timeouts(chance, pool) if timed and chance.random() < 0.75 else pool
        pool = pool._replace(queue=0) if pool.may_reject and chance.random() < 0.4 else pool
        pools.append(without_bound(pool) if unbounded and chance.random() < 0.67 else pool)
    classes = [
        Class("abcd"[number], chance.randrange(len(pools)), body_by_chance(chance, number))
        for number in range(chance.choice([1, 2, 3, 4]))
    ]
    clients = [
        Client("uvw"[number], chance.choice([1, 2, 3, 5]), chance.random() < 0.7, body_by_chance(chance, len(classes)))
        for number in range(chance.choice([1, 1, 2, 3]))
    ]
    return Plan(pools, classes, clients)


def with_timeouts(chance, pool):
    """Returns the pool whose core threads may time out. In two fifths of the cases it has an unbounded queue, and in one fifth it may reject
    jobs."""
    pool, kind = pool._replace(core_timeout=True), chance.choice(["bounded", "bounded", "rejecting", "unbounded", "without a maximum"])
    if kind == "rejecting":
        return pool._replace(may_reject=True)
    most = NO_MAXIMUM if kind == "without a maximum" else pool.max
    return pool if kind == "bounded" else without_bound(pool._replace(max=most))


def walk(plan, chance, in_steps, leaving_out, machine_of=Machine, most=60):
    """Returns a machine after a random list of events, the events, and the expected answers."""
    machine, events, answers = machine_of(plan, in_steps), [], []
    while len(events) < most and len(machine.jobs) < MOST_JOBS:
        event = draw(machine, chance, leaving_out)
        if event is None:
            break
        events.append(event)
        answers.append(machine.answer(event))
        if answers[-1] == NOT_POSSIBLE:
            break
    return machine, events, answers


def draw(machine, chance, leaving_out):
    """Returns a random possible event, sometimes a line `stuck`, and rarely an event that may not be possible."""
    if machine.jobs and chance.random() < 0.05:
        waiting = machine.most_waiting()
        members = waiting if waiting and chance.random() < 0.7 else {chance.randrange(len(machine.jobs)) for _ in range(2)}
        return "stuck " + " ".join(map(str, sorted(members)))
    if chance.random() < 0.01:
        return chance.choice([
            f"client {chance.randrange(len(machine.clients) + 1)}", f"job {chance.randrange(len(machine.jobs) + 1)}",
            f"take {machine.plan.pools[0].name}", f"retire {machine.plan.pools[0].name}",
        ])
    moves = [event for event in machine.moves() if leaving_out or not event.startswith("leave")]
    return chance.choices(moves, [WEIGHTS[event.split()[0]] for event in moves])[0] if moves else None
