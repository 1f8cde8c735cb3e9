#!/usr/bin/env python3
"""Searches the states of random plans in which core threads of pools may time out, and compares the built program with what it finds.

For each plan that the second search of found_certs.py accepts, no reachable state is bad, in the machine of small_plans.py (one event for
each submit) and in that of java_steps.py (Java's steps, in which Java looks at a pool after an offer and after the end of a thread): no
submit is refused, no set of jobs waits only for its own members, and a job or a pool can make progress while a job is unfinished.

If a pool whose core threads may time out can wait for itself (no_sizes.py), the second search accepts the plan with no sizes that are
tried. If there is no reason why no sizes help, it accepts the plan with large ones.

Wrong rules must be found: with each rule of WRONG_RULES, the second search accepts some plan that has a bad state, and with each machine of
WRONG_MACHINES, some accepted plan has a bad state.

If there is a program, `sizing ask` says SAFE of exactly the plans that the second search accepts. Each witness ends in a bad state of the
machine of small_plans.py. The second search accepts the sizes that `ask` proposes, and the cause that it reports is one of no_sizes.py.

    python3 checks/core_timeouts.py [PLANS [SEED [STATES]]]     # by default 300 plans, seed 1 and 1,500 states of each

The program is crates/sizing/out/sizing, or the one that the environment variable SIZING names.

Exit status: 0 if all of this holds, 1 if not.
"""

import json
import random
import subprocess
import sys
from collections import Counter
from contextlib import nullcontext
from unittest.mock import patch

sys.dont_write_bytecode = True

import found_certs
import small_plans
from asking import SECONDS, built_program, each
from found_certs import NONE, Class, Client, Plan, Pool, answer, plan_by_chance, text
from java_steps import JavaMachine
from no_sizes import NOTHING_FOUND, causes, is_unsteady, waits_for_itself
from read_plans import read_plan
from small_plans import NO_MAXIMUM, Machine, explored
from witnesses import replayed

LARGE_CORE, LARGE_QUEUE = 100_000, 1_000_000
# The maximum numbers of clients of a kind and of queued jobs, and the maximum core, of the plans whose states are searched.
MOST_CLIENTS, MOST_QUEUED, MOST_CORE = 2, 2, 2
# The number of plans that are tried to find a wrong rule or a wrong machine, and the minimum number of their states that are searched.
TRIES, STATES_TO_FIND = 4_000, 1_500


# ---- rules and machines that are wrong on purpose

def other_limit(plan, pool):
    """Returns the limit of a standing vector, which is none if the queue of some pool is unbounded."""
    return float("inf") if any(other.unbounded for other in plan.pools) else plan.pools[pool].queue


WRONG_RULES = {
    "fewer than core threads may block": patch.object(Pool, "least_threads", lambda pool: pool.core),
    "one thread too many may block": patch.object(Pool, "least_threads", lambda pool: 2 if pool.core_timeout else pool.core),
    "the lifetime limit counts threads": patch.object(
        Pool, "lifetime_limit", lambda pool: pool.queue + pool.most - (pool.core if pool.prestart else 0)
    ),
    "the lifetime limit is one more": patch.object(
        Pool, "lifetime_limit", lambda pool: pool.queue + (1 if pool.core_timeout else pool.most - (pool.core if pool.prestart else 0))
    ),
    "only core threads lend": patch.object(Pool, "lending_threads", lambda pool: pool.core if pool.core_timeout else pool.most),
    "S2 is forgotten beside an unbounded queue": patch.object(found_certs, "standing_limit", other_limit),
}


class LastThreadEnds(Machine):
    """The machine in which the last thread may end while a job is queued."""

    def has_spare_thread(self, state, number):
        return self.plan.pools[number].core_timeout or super().has_spare_thread(state, number)


class NoLookAfterOffers(JavaMachine):
    looks_after_offers = False


class NoLookAfterEnds(JavaMachine):
    looks_after_ends = False


WRONG_MACHINES = [LastThreadEnds, NoLookAfterOffers, NoLookAfterEnds]


# ---- plans

def timed_plan(chance, number):
    """Returns a random plan with a pool whose core threads may time out, and with few states."""
    while True:
        plan = plan_by_chance(chance, rejecting=number % 4 == 3, unbounded=number % 2 == 0, timed=True)
        if any(pool.core_timeout for pool in plan.pools):
            for client in plan.clients:
                client.count = min(client.count, MOST_CLIENTS)
            return Plan([small_pool(pool) for pool in plan.pools], plan.classes, plan.clients)


def lending_plan():
    """Returns a plan in which a pool may have a thread above core although its queue is unbounded, and lends to another pool."""
    pools = [Pool(1, 2, 1, False, unbounded=True, core_timeout=True), Pool(1, 1, 1, False)]
    classes = [Class(0, [("submit", 1), ("get", 0)]), Class(1, [])]
    return Plan(pools, classes, [Client(2, True, [("submit", 0), ("get", 0)])])


def tried_plans(chance):
    yield lending_plan()
    yield from (timed_plan(chance, number) for number in range(TRIES))


def small_pool(pool):
    core, more = min(pool.core, MOST_CORE), min(pool.most - pool.core, 1)
    most = NO_MAXIMUM if pool.most == NO_MAXIMUM else core + more
    return Pool(core, most, min(pool.queue, MOST_QUEUED), pool.prestart, pool.may_reject, pool.unbounded, pool.core_timeout)


def is_accepted(plan, rules=None):
    with rules or nullcontext():
        return answer(plan) != NONE


# ---- states

def bad_state(plan, machine):
    """Returns the number of visited states, and the fault of a bad one or None."""
    read = read_plan(text(plan))
    states, found, _ = explored(read, machine(read))
    return states, found


def searched(plans):
    """Searches the states of the accepted plans, and prints their numbers. Returns the number of plans with a bad state."""
    count, wrong = Counter(), 0
    for plan in filter(is_accepted, plans):
        count["plans"] += 1
        for machine in (Machine, JavaMachine):
            states, found = bad_state(plan, machine)
            count[machine.__name__] += states
            wrong += report(plan, found and f"{found}, in {machine.__name__}")
    print(f"{len(plans)} plans, {count['plans']} accepted: {count['Machine']} states, and {count['JavaMachine']} states in Java's steps; "
          f"{wrong} bad", flush=True)
    return wrong if count["plans"] else 1


def finds_rule(rules, chance):
    """Returns whether the search of states finds these wrong rules."""
    wrongly = (plan for plan in tried_plans(chance) if is_accepted(plan, rules) and not is_accepted(plan))
    return any(bad_state(plan, machine)[1] for plan in wrongly for machine in (Machine, JavaMachine))


def finds_machine(machine, chance):
    """Returns whether the search of states finds this wrong machine."""
    return any(is_accepted(plan) and bad_state(plan, machine)[1] for plan in tried_plans(chance))


def missed(seed):
    """Prints the wrong rules and machines that the search of states does not find, and returns their number."""
    small_plans.MOST_STATES = max(small_plans.MOST_STATES, STATES_TO_FIND)
    named = {name: finds_rule(rules, random.Random(seed)) for name, rules in WRONG_RULES.items()}
    named |= {machine.__name__: finds_machine(machine, random.Random(seed)) for machine in WRONG_MACHINES}
    lacking = [name for name, is_found in named.items() if not is_found]
    print(f"{len(named)} wrong rules and machines, not found: {', '.join(lacking) or 'none'}", flush=True)
    return len(lacking)


# ---- sizes

def sizes_differ(plans):
    """Returns the number of plans whose causes are wrong: the second search accepts one of them with large sizes, or does not accept a
    plan without a cause."""
    wrong, waiting, sized = 0, 0, 0
    for plan in plans:
        read = read_plan(text(plan))
        is_sized = any(map(is_accepted, larger(plan)))
        if causes(read):
            waiting += bool(waits_for_itself(read))
            wrong += report(plan, is_sized and f"sizes help, but the causes are {causes(read)}")
        elif not is_unsteady(read):
            sized += 1
            wrong += report(plan, not is_sized and "there is no cause, but no large sizes help")
    print(f"{sized} plans with sizes, {waiting} with a pool that may wait for itself; {wrong} wrong", flush=True)
    return wrong if sized and waiting else 1


def larger(plan):
    """Yields the plan with large sizes: first those that `fit` may change, and then all."""
    for grows in (lambda pool: not pool.core_timeout, lambda pool: True):
        yield Plan([large_pool(pool, grows(pool)) for pool in plan.pools], plan.classes, plan.clients)


def large_pool(pool, has_large_core):
    core = LARGE_CORE if has_large_core else pool.core
    queue = pool.queue if pool.may_reject or pool.unbounded else LARGE_QUEUE
    return Pool(core, max(core, pool.most), queue, pool.prestart, pool.may_reject, pool.unbounded, pool.core_timeout)


# ---- the program

def answers_differ(program, plans):
    """Returns the number of plans for which the answer of `sizing ask` is wrong."""
    asked = each(lambda plan: ask(program, text(plan)), plans)
    count = Counter(value["answer"] for value in asked)
    wrong = sum(report(plan, fault_of(plan, value)) for plan, value in zip(plans, asked))
    print(f"answers of the program: {', '.join(f'{word} {number}' for word, number in sorted(count.items()))}; {wrong} wrong")
    return wrong


def ask(program, given):
    done = subprocess.run([program, "ask", "--json"], input=given, capture_output=True, text=True, timeout=SECONDS, check=False)
    return json.loads(done.stdout)


def fault_of(plan, value):
    """Returns the fault of the answer to a plan, or None."""
    if (value["answer"] == "SAFE") != is_accepted(plan):
        return f"the answer is {value['answer']}"
    if value["witness"] is not None and (fault := replayed(text(plan), value["witness"]["replay"])[2]):
        return f"the witness is wrong: {fault}"
    return value["sizes"] and fault_of_sizes(plan, value["sizes"])


def fault_of_sizes(plan, sizes):
    read = read_plan(text(plan))
    if (cause := sizes["cause"]) is not None:
        is_possible = is_unsteady(read) if ": sizes above " in cause["text"] else cause["text"] in causes(read)
        return None if is_possible else f"the cause is {cause}, and not one of {causes(read)} ({NOTHING_FOUND})"
    found = [with_changes(pool, changed["changes"]) for pool, changed in zip(plan.pools, sizes["pools"])]
    return None if is_accepted(Plan(found, plan.classes, plan.clients)) else f"the sizes {sizes['pools']} are not accepted"


def with_changes(pool, changes):
    """Returns the pool with the changed sizes."""
    new = {change["key"]: change["value"] for change in changes}
    core, most, queue = new.get("core", pool.core), new.get("max", pool.most), new.get("queue", pool.queue)
    return Pool(core, most, queue, pool.prestart, pool.may_reject, pool.unbounded, pool.core_timeout)


def report(plan, fault):
    if fault:
        print(f"{text(plan)}{fault}\n", flush=True)
    return bool(fault)


def main():
    words = [int(word) for word in sys.argv[1:]]
    count, seed, small_plans.MOST_STATES = (words + [300, 1, 1_500][len(words):])[:3]
    chance = random.Random(seed)
    plans = [timed_plan(chance, number) for number in range(count)]
    wrong = searched(plans) + sizes_differ(plans) + missed(seed)
    if program := built_program():
        wrong += answers_differ(program, plans)
    print(f"{wrong} wrong")
    return 1 if wrong else 0


if __name__ == "__main__":
    sys.exit(main())
