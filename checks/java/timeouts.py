"""Pools whose core threads time out, on unmodified executors of the JDK: a plan that such timeouts can stop, and plans with a certificate.

The executors have a keep-alive of two milliseconds. Actors sometimes submit at the moment when an idle thread ends (Timeouts.java). Which
plans stop was found by hand: eight jobs that each get the next one in one pool need a thread each. If the eighth is queued while the only
idle thread ends, the other seven wait forever. (Fewer wait if several idle threads end.) To have more such moments, the seventh job submits
and gets the eighth several times, and several services with executors of their own run at the same time. Without core timeouts, or if
no job of a pool gets a job of the same pool, none waits.

`sizing certify` must find a certificate exactly for the plans that do not stop, and `sizing refute` a witness for Spring Boot's default
executor with a job that gets a job. The witness must end in the same stuck jobs in `sizing replay` and on executors that are driven by
its events, and not without core timeouts.
"""

from java_text import plan_lines
from learned import replayed
from small_plans import NO_MAXIMUM, Class, Client, Plan, Pool, text_of, without_bound

KEEP_ALIVE = 2000
# The maximum number of milliseconds in which a plan that can stop must do so, and the time for which the other plans run.
UNTIL_STOPPED, RUN = 40_000, 4_000
# The number of services with the same plan that run until one stops.
SERVICES = 4
# The number of submits of the last job in a round.
TIMES = 40
CORE = 8


def boot(name, core_timeout=True):
    """Returns a pool with the sizes of Spring Boot's executor."""
    return without_bound(Pool(name, CORE, NO_MAXIMUM if core_timeout else CORE, 0, False, core_timeout=core_timeout))


def chain(pools, places, count=1, gets=True, times=1):
    """Returns a plan in which a job of each class but the last submits one of the next class, and gets it if it is wanted. The last one is
    submitted this number of times, one after the other. The places are the numbers of the classes' pools."""
    last = len(places) - 1
    classes = [Class(f"c{number}", pool, [] if number == last else submits(number + 1, gets, times if number == last - 1 else 1))
               for number, pool in enumerate(places)]
    return Plan(pools, classes, [Client("u", count, True, submits(0, True, 1))])


def submits(number, gets, times):
    return [action for time in range(times) for action in (("submit", number), ("get", 2 * time))[: 1 + gets]]


STOPS = {"eight jobs in one pool": chain([boot("p")], [0] * CORE, times=TIMES)}
NEVER_STOPS = {
    "eight jobs in one pool, no core timeout": chain([boot("p", core_timeout=False)], [0] * CORE, times=TIMES),
    "inner jobs in a pool of their own": chain([boot("p"), boot("q", core_timeout=False)], [0, 1], count=7),
    "inner jobs in a pool of their own, with core timeouts": chain([boot("p"), boot("q")], [0, 1], count=7),
    "jobs without gets": chain([boot("p")], [0] * CORE, gets=False),
}
# An outer job gets an inner one. Two jobs stop the pool if all its other threads end.
NESTED = chain([boot("p")._replace(prestart=True)], [0, 0])


def part(tools):
    wrong = [line for name, plan in STOPS.items() for line in stops(tools, name, plan)]
    wrong += [line for name, plan in NEVER_STOPS.items() for line in never_stops(tools, name, plan)]
    return wrong + certified(tools) + refuted(tools)


def run(tools, plan, milliseconds, services):
    printed = tools.run_java("Timeouts", KEEP_ALIVE, milliseconds, services, given="\n".join(plan_lines(plan)) + "\n")[0]
    return {what: int(number) for what, number in (words.split() for words in printed.split(", "))}


def stops(tools, name, plan):
    """Runs a plan until its jobs wait for each other: all threads that are left get jobs, and one job is queued. Fewer than core are left."""
    printed = run(tools, plan, UNTIL_STOPPED, SERVICES)
    print(f"timeouts, {name}: stopped {printed['stopped']}, after {printed['jobs']} jobs and {printed['milliseconds']} milliseconds", flush=True)
    is_expected = (printed["stopped"] and 0 < printed["threads"] < CORE and (printed["queued"], printed["refused"]) == (1, 0)
                   and printed["jobs"] - printed["completed"] == printed["threads"] + 1)
    return [] if is_expected else [f"timeouts, {name}: {printed}"]


def never_stops(tools, name, plan):
    printed = run(tools, plan, RUN, 1)
    print(f"timeouts, {name}: stopped {printed['stopped']} in {printed['rounds']} rounds, jobs {printed['jobs']}, submits at the end of a keep-alive "
          f"{printed['aimed']}", flush=True)
    has_timeouts = any(pool.core_timeout for pool in plan.pools)
    is_expected = (not printed["stopped"] and not printed["refused"] and printed["completed"] == printed["jobs"]
                   and bool(printed["aimed"]) == has_timeouts)
    return [] if is_expected else [f"timeouts, {name}: {printed}"]


def certified(tools):
    """Checks that `certify` finds a certificate for the plans that do not stop, and for no other."""
    wrong = []
    for name, plan in [*STOPS.items(), *NEVER_STOPS.items(), ("an outer and an inner job", NESTED)]:
        status, printed = tools.sizing("certify", text_of(plan))
        if status != (name not in NEVER_STOPS):
            wrong.append(f"timeouts, {name}: certify ends with {status}: {printed}")
    print(f"timeouts: {len(STOPS) + len(NEVER_STOPS) + 1} plans, {len(NEVER_STOPS)} with a certificate, {len(wrong)} wrong", flush=True)
    return wrong


def refuted(tools):
    status, printed = tools.sizing("refute", text_of(NESTED))
    if status != 1 or not printed.startswith("stuck"):
        return [f"timeouts, an outer and an inner job: refute ends with {status}: {printed}"]
    right = NESTED._replace(pools=[boot("p", core_timeout=False)._replace(prestart=True)])
    wrong = [f"timeouts, an outer and an inner job: {line}" for line in replayed(tools, right, NESTED, printed)]
    print(f"timeouts, an outer and an inner job: {printed.splitlines()[0]}; replayed, {len(wrong)} wrong", flush=True)
    return wrong
