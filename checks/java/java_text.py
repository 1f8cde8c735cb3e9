"""The texts of plans and cases that the Java programs of this folder read."""

from small_plans import NO_MAXIMUM

# The capacity of a LinkedBlockingQueue that is made without one.
UNBOUNDED = 2_147_483_647
# The excess of the maximum over core if the queue is unbounded. It has no effect unless core threads may time out.
MORE_THREADS = 3
# The maximum of an executor that has none, as that of Spring Boot.
NO_MOST = 2_147_483_647


def plan_lines(plan):
    for pool in plan.pools:
        flags = " ".join(str(flag).lower() for flag in (pool.prestart, pool.may_reject, pool.core_timeout))
        yield f"pool {pool.name} {pool.core} {most_of(pool)} {UNBOUNDED if pool.unbounded else pool.queue} {flags}"
    for one in plan.classes:
        yield " ".join(["class", str(one.pool), "false", *actions(one.body)])
    for client in plan.clients:
        yield " ".join(["client", str(client.count), str(client.repeat).lower(), *actions(client.body)])
    yield "events"


def most_of(pool):
    """Returns the maximum of the executor of a pool."""
    if pool.unbounded and not pool.core_timeout:
        return pool.core + MORE_THREADS
    return NO_MOST if pool.max == NO_MAXIMUM else pool.max


def actions(body):
    return [f"{what[0]}{operand}" for what, operand in body]


def case(plan, kind, in_steps, events):
    return "\n".join([f"case {kind} {str(in_steps).lower()}", *plan_lines(plan), *events, "end"]) + "\n"
