"""The reasons why no sizes help a plan, derived from its bodies and from the pools that may reject jobs or have an unbounded queue, or
whose core threads may time out: a cycle of submits, a submit to a pool that needs a bound, which is repeated forever and never got, or a
pool whose last thread may wait for a job of the same pool."""

# The line of `fit` before the line with the reason.
NOTHING_FOUND = "no fitting sizes found"


def causes(plan):
    """Returns the lines that `fit` may print as the reason why no sizes help the plan. Returns none if some sizes help."""
    return circles(plan) or never_got(plan) or waits_for_itself(plan)


def circles(plan):
    return {
        f"class {entry.name} submits itself"
        for number, entry in enumerate(plan.classes)
        if number in submitted(plan, [entry.body])
    }


def never_got(plan):
    """Returns the lines for the repeated submits without a get, except those to pools that may reject jobs or have an unbounded queue."""
    return {
        f"{name} action {place}: submits without end, and no get waits for these jobs"
        for name, place, number in repeated_without_get(plan)
        if not needs_no_bound(pool_of(plan, number))
    }


def waits_for_itself(plan):
    """Returns the lines for the pools whose core threads may time out, and whose last thread may wait for a job of the same pool."""
    return {
        f"pool {pool.name}: its last thread may wait for a job of this pool, since core threads may time out"
        for number, pool in enumerate(plan.pools)
        if any(plan.classes[waited].pool == number for waited in waited_for(plan, number))
    }


def waited_for(plan, pool):
    """Returns the classes for whose jobs the last thread of a pool may wait: directly, through the gets of these jobs, or because they
    are queued in a pool whose own last thread waits."""
    used = submitted(plan, [client.body for client in plan.clients])

    def by_thread(of):
        jobs = used if plan.pools[of].core_timeout else ()
        return {got for number in jobs if plan.classes[number].pool == of for got in got_classes(plan, number)}

    found, pending = set(), by_thread(pool)
    while pending:
        found |= pending
        pending = {got for number in pending for got in got_classes(plan, number) | by_thread(plan.classes[number].pool)} - found
    return found


def got_classes(plan, number):
    body = plan.classes[number].body
    return {body[place][1] for word, place in body if word == "get"}


def is_unsteady(plan):
    """Returns whether the plan's steady certificate may be refused with all sizes, although sizes exist: a submit is repeated forever and
    never got, which goes to a pool that needs no bound, or no client causes a job of a class that has a get, and the core threads of its
    pool may time out."""
    used = submitted(plan, [client.body for client in plan.clients])
    unused = [number for number in range(len(plan.classes)) if number not in used and pool_of(plan, number).core_timeout]
    return loses_jobs(plan) or any(got_classes(plan, number) for number in unused)


def loses_jobs(plan):
    """Returns whether a repeated submit without a get goes to a pool that may reject jobs or has an unbounded queue."""
    return any(needs_no_bound(pool_of(plan, number)) for _, _, number in repeated_without_get(plan))


def grows(plan):
    """Returns whether a repeated submit without a get goes to a pool with an unbounded queue, so that the queue may grow forever."""
    return any(pool_of(plan, number).unbounded for _, _, number in repeated_without_get(plan))


def needs_no_bound(pool):
    return pool.may_reject or pool.unbounded


def pool_of(plan, number):
    return plan.pools[plan.classes[number].pool]


def repeated_without_get(plan):
    """Yields the submits without a get that are repeated: those in the bodies of clients that repeat, and in the bodies of the jobs that
    these clients cause. Each is the name of the client or class, the position of the submit, and the submitted class."""
    bodies = [(f"client {client.name}", client.body) for client in plan.clients if client.repeat]
    for number in submitted(plan, [body for _, body in bodies]):
        bodies.append((f"class {plan.classes[number].name}", plan.classes[number].body))
    for name, body in bodies:
        for place, (word, what) in enumerate(body):
            if word == "submit" and ("get", place) not in body:
                yield name, place, what


def submitted(plan, bodies):
    """Returns the classes that these bodies submit, directly or through their jobs."""
    seen, bodies = set(), list(bodies)
    while bodies:
        for word, what in bodies.pop():
            if word == "submit" and what not in seen:
                seen.add(what)
                bodies.append(plan.classes[what].body)
    return seen
