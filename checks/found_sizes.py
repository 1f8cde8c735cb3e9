#!/usr/bin/env python3
"""Tests the sizes that `sizing fit` finds, on small random plans, with the second search of found_certs.py.

For each plan:

- If the plan has a cycle of submits, a submit without a get that is repeated forever, or a pool whose core threads may time out, and
  whose last thread may wait for a job of the pool, `fit` names a class of the cycle, such a submit or such a pool. A submit to a pool
  with an unbounded queue is no such submit.
- For every other plan `fit` finds sizes, none of which is smaller than the plan's size. (If a submit to a pool with an unbounded queue
  is repeated forever and never got, or if no client causes a job that has a get in a pool whose core threads may time out, `fit` may also
  print that the sizes are above their limit.)
- If the second search finds a certificate for the plan, `fit` changes nothing.

For small plans (one or two pools, one client of each client kind), the second search finds no certificate for sizes that grow less
in total. The check tries all such sizes, if there are not too many.

In half of the plans and in a third of the small ones, queues may be unbounded. Such a pool has only one size, its core, unless its core
threads may time out, which they may in two fifths of the plans.

    python3 checks/found_sizes.py [PLANS [SMALL_PLANS [SEED]]]     # by default 2,000 plans, 100 small ones and seed 1

The program is crates/sizing/out/sizing, or the one that the environment variable SIZING names.

Exit status: 0 if all of this holds, 1 if not, 2 if there is no program.
"""

import random
import re
import sys

sys.dont_write_bytecode = True

from asking import built_program, each, written
from found_certs import NONE, Plan, Pool, answer, plan_by_chance, text
from small_plans import NO_MAXIMUM
from steady import MOST_SIZE
from no_sizes import NOTHING_FOUND, causes, is_unsteady
from read_plans import read_plan

# The line of a pool. It has no maximum if the queue is unbounded, unless core threads may time out.
SIZES = re.compile(r"pool \S+: core (\d+)(?: \(now \d+\))?(?:, max (\d+|unbounded)(?: \(now \d+\))?)?, queue (\d+|unbounded)(?: \(now \d+\))?")
# The maximum total growth of a small plan for which all smaller sizes are tried, by the number of its pools.
MOST_GROWTH = {1: 9, 2: 7}


def main():
    if not (program := built_program()):
        return 2
    words = [int(word) for word in sys.argv[1:]]
    count, small_count, seed = (words + [2000, 100, 1][len(words):])[:3]
    chance = random.Random(seed)
    plans = [plan_by_chance(chance, unbounded=number % 2 == 1, timed=number % 5 > 2) for number in range(count)]
    small = [small_plan(chance, unbounded=number % 3 == 2, timed=number % 5 > 2) for number in range(small_count)]
    wrong = 0
    kinds = {"no sizes help": 0, "as it is": 0, "sizes change": 0}
    for plan, printed in zip(plans, answers(program, plans)):
        kind, fault = fault_of(plan, printed)
        kinds[kind] += 1
        wrong += report(plan, printed, fault)
    tried = 0
    for plan, printed in zip(small, answers(program, small)):
        sizes = sizes_in(printed)
        if sizes is None:
            wrong += report(plan, printed, "no sizes")
            continue
        if growth(plan, sizes) > MOST_GROWTH[len(plan.pools)]:
            continue
        tried += 1
        cheaper = cheaper_sizes(plan, growth(plan, sizes), lambda other: answer(other) != NONE)
        wrong += report(plan, printed, cheaper and f"smaller sizes are enough: {cheaper}")
    print(f"{count} plans: " + ", ".join(f"{kind} {number}" for kind, number in kinds.items()))
    print(f"{small_count} small plans, {tried} compared with all sizes; {wrong} of all are wrong")
    return 1 if wrong or small and not tried else 0


def report(plan, printed, fault):
    if fault:
        print(f"for the plan\n{text(plan)}the answer is\n{printed}\n{fault}")
    return bool(fault)


def answers(program, plans):
    return each(lambda plan: written(program, ["fit"], text(plan)).strip(), plans)


def fault_of(plan, printed):
    """Returns the kind of the plan, and the fault of the answer, which is empty if the answer is right."""
    if wanted := causes(read_plan(text(plan))):
        head, _, cause = printed.partition("\n")
        is_expected = head == NOTHING_FOUND and cause in wanted
        return "no sizes help", "" if is_expected else f"expected one of {sorted(wanted)}"
    sizes = sizes_in(printed)
    if sizes is None:
        is_possible = ": sizes above " in printed and is_unsteady(read_plan(text(plan)))
        return "no sizes help", "" if is_possible else "no sizes"
    if any(now > size for pool, found in zip(plan.pools, sizes) for now, size in zip(sizes_of(pool), found)):
        return "sizes change", "a size falls"
    if answer(plan) == NONE:
        return "sizes change", ""
    return "as it is", "a size changes" if growth(plan, sizes) else ""


# ---- sizes

def sizes_of(pool):
    """Returns the core, the maximum and the queue of a pool. The queue is 0 if it is unbounded, and then the maximum is 0 too, unless core
    threads may time out."""
    return (pool.core, pool.most if pool.core_timeout else 0, 0) if pool.unbounded else (pool.core, pool.most, pool.queue)


def sizes_in(printed):
    found = [(int(core), maximum(most), 0 if queue == "unbounded" else int(queue)) for core, most, queue in SIZES.findall(printed)]
    return found if "\nchanges " in printed else None


def maximum(words):
    return NO_MAXIMUM if words == "unbounded" else int(words or 0)


def with_sizes(plan, sizes):
    pools = [Pool(*found, pool.prestart, pool.may_reject, pool.unbounded, pool.core_timeout) for pool, found in zip(plan.pools, sizes)]
    return Plan(pools, plan.classes, plan.clients)


def are_possible(plan, sizes):
    """Returns whether each pool can have these sizes. If the queue is unbounded, only the core is a size, and with core threads that may
    time out the maximum."""
    return all(map(is_possible, plan.pools, sizes))


def is_possible(pool, sizes):
    core, most, queue = sizes
    is_ordered = not most if pool.unbounded and not pool.core_timeout else core <= most <= max(pool.most, MOST_SIZE)
    return is_ordered and not (pool.unbounded and queue)


def growth(plan, sizes):
    return sum(sum(found) - sum(sizes_of(pool)) for pool, found in zip(plan.pools, sizes))


def cheaper_sizes(plan, limit, is_certified):
    """Returns the sizes with a certificate that grow least in total, by less than `limit`, or None if there are none."""
    declared = [size for pool in plan.pools for size in sizes_of(pool)]
    for total in range(limit):
        for added in shares(len(declared), total):
            numbers = [size + more for size, more in zip(declared, added)]
            sizes = list(zip(numbers[0::3], numbers[1::3], numbers[2::3]))
            if are_possible(plan, sizes) and is_certified(with_sizes(plan, sizes)):
                return sizes
    return None


def shares(places, total):
    """Yields all ways to divide the total into this number of parts."""
    if places == 1:
        yield (total,)
        return
    for first in range(total + 1):
        for rest in shares(places - 1, total - first):
            yield (first, *rest)


def small_plan(chance, unbounded=False, timed=False):
    """Returns a random plan of one or two small pools that has a certificate with some sizes, but none with its own sizes. If it is
    unbounded, pools may have unbounded queues, and if it is timed, their core threads may time out."""
    while True:
        plan = plan_by_chance(chance, unbounded=unbounded, timed=timed)
        for client in plan.clients:
            client.count = 1
        plan.pools = [small_pool(pool) for pool in plan.pools]
        if len(plan.pools) <= 2 and answer(plan) == NONE:
            read = read_plan(text(plan))
            if not causes(read) and not is_unsteady(read):
                return plan


def small_pool(pool):
    core = min(pool.core, 2)
    most = pool.most if pool.most == NO_MAXIMUM else core + min(pool.most - pool.core, 1)
    return Pool(core, most, min(pool.queue, 2), pool.prestart, pool.may_reject, pool.unbounded, pool.core_timeout)


if __name__ == "__main__":
    sys.exit(main())
