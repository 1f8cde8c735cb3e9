"""Clients that repeat the bodies of certified plans of examples/, with the queues that the plans need, and with a queue that has one
place fewer.

The total of the certificate is a bound for the queue that the plan needs. If one place fewer is not safe (derived by hand), some submit
must be refused.

Some of the plans are run with unbounded queues too. The executors then have maximums above core. No submit may be refused, each job must
be done, and no pool may have a thread above core. With a queue of 1 in place of an unbounded one, some pool must have one, or refuse a job.
"""

from pathlib import Path

from java_text import MORE_THREADS, plan_lines
from read_plans import read_plan
from small_plans import without_bound

EXAMPLES = Path(__file__).resolve().parent.parent.parent / "examples"
ROUNDS = 100_000
# The maximum time in microseconds that a slow worker waits before it takes a job.
SLOW = 150
# The same for a pool whose queue has one place fewer. It is longer, so that the pool's threads are often idle at the same time.
SLOW_LESS = 2000
PART_LEFT_OUT = 0.25
# The ways to run a plan: the number of rounds, the fraction of the submits that are skipped, and the maximum delay of the workers in
# microseconds.
WAYS = ((ROUNDS, 0, 0), (20_000, PART_LEFT_OUT, 0), (20_000, 0, SLOW), (20_000, PART_LEFT_OUT, SLOW))
# The pools whose queue is as long as the plan needs, with this length. A comment says which jobs need all of its places.
ONE_LESS = {
    # both jobs are queued, while the one thread is idle
    "two-clients-queue-of-two": {"p": 2},
    "start-before-queue": {"p": 2},
    # all 25 requests are queued, while all threads are idle
    "web-and-database-sized": {"web": 25},
    # all 1,000 requests are queued in front; the jobs of four front threads are queued in back, while its two threads are idle
    "front-and-back": {"front": 1000, "back": 4},
    # the jobs of both clients are queued, while the threads are idle
    "cross-pools-two-threads": {"p": 2, "q": 2},
    # six sections are queued, while two reports run and all other threads are idle
    "report-fan-out-core-3": {"reports": 6},
    # both jobs are queued, while the prestarted thread is idle
    "fan-out-of-two": {"p": 2},
    # one place is enough, and a queue cannot have fewer
    "one-report-prestarted": {},
    "nested-two-workers": {},
    "one-client-loops": {},
    "one-burst": {},
}
# The plans that are run with unbounded queues, and the ways to run them.
UNBOUNDED = ("audit-log", "two-clients-queue-of-two", "web-and-database-sized", "cross-pools-two-threads", "report-fan-out-core-3", "fan-out-of-two")
UNBOUNDED_WAYS = ((ROUNDS, 0, 0), (20_000, PART_LEFT_OUT, SLOW))


def part(tools):
    return [*(line for name, sizes in ONE_LESS.items() for line in loops_of(tools, name, sizes)),
            *(line for name in UNBOUNDED for line in unbounded_loops_of(tools, name))]


def loops_of(tools, name, sizes):
    """Runs a plan with the queues that it needs, and for each pool of `sizes` with one place fewer in that pool's queue."""
    plan = read_plan((EXAMPLES / f"{name}.toml").read_text())
    needed = with_queues(plan, sizes)
    repeats = any(client.repeat for client in plan.clients)
    wrong, jobs, less = [], 0, []
    for kind in ("array", "linked"):
        for rounds, leaves, slow in WAYS:
            printed = looped(tools, needed, kind, rounds, leaves, slow, "all", False)
            jobs += printed["completed"]
            if printed["refused"] or printed["completed"] != printed["jobs"] or repeats and printed["rounds"] != rounds:
                wrong.append(f"loops, {name}, {kind}, slow {slow}, skips {leaves}: {printed}")
        for pool, queue in sizes.items():
            printed = looped(tools, with_queues(needed, {pool: queue - 1}), kind, ROUNDS, 0, SLOW_LESS, pool, True)
            less.append(f"{pool} {queue - 1} ({kind}) after {printed['rounds']}")
            if not printed["refused"]:
                wrong.append(f"loops, {name}, {kind}, {pool} {queue - 1}: none refused in {printed['rounds']} rounds")
    rounds = ", ".join(str(rounds) for rounds, _, _ in WAYS) if repeats else "no"
    print(f"loops, {name}: two kinds of queue, {rounds} rounds each, {jobs} jobs, with {len(wrong)} wrong"
          + (f"; with one place fewer refused in {', '.join(less)} rounds" if less else ""), flush=True)
    return wrong


def unbounded_loops_of(tools, name):
    """Runs a plan with unbounded queues, and with queues of 1 in their place."""
    plan = read_plan((EXAMPLES / f"{name}.toml").read_text())
    unbounded = plan._replace(pools=[without_bound(pool) for pool in plan.pools])
    wrong, jobs = [], 0
    for rounds, leaves, slow in UNBOUNDED_WAYS:
        printed = looped(tools, unbounded, "linked", rounds, leaves, slow, "all", False)
        jobs += printed["completed"]
        if printed["refused"] or printed["grown"] or printed["completed"] != printed["jobs"] or printed["rounds"] != rounds:
            wrong.append(f"loops, {name}, unbounded, slow {slow}, skips {leaves}: {printed}")
    bounded = plan._replace(pools=[pool._replace(max=pool.core + MORE_THREADS, queue=1) for pool in plan.pools])
    printed = looped(tools, bounded, "linked", ROUNDS, 0, SLOW_LESS, "all", True)
    if not printed["grown"] and not printed["refused"]:
        wrong.append(f"loops, {name}, queues of 1 in place of unbounded ones: {printed}")
    print(f"loops, {name}, with unbounded queues: {', '.join(str(rounds) for rounds, _, _ in UNBOUNDED_WAYS)} rounds, {jobs} jobs, with "
          f"{len(wrong)} wrong; with queues of 1, {printed['grown']} pools have threads above core, and {printed['refused']} jobs are refused", flush=True)
    return wrong


def with_queues(plan, sizes):
    return plan._replace(pools=[pool._replace(queue=sizes.get(pool.name, pool.queue)) for pool in plan.pools])


def looped(tools, plan, kind, rounds, leaves, slow, slow_pool, until_refused):
    given = "\n".join(plan_lines(plan)) + "\n"
    printed = tools.run_java("Loops", kind, rounds, leaves, slow, slow_pool, str(until_refused).lower(), given=given)[0]
    return {what: int(number) for what, number in (words.split() for words in printed.split(", "))}
