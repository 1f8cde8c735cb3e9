"""Small recordings with the expected findings of `conform.py`, derived by hand, and the test rows of `sizing conform`."""

import sys
from pathlib import Path

sys.path.insert(0, str(Path(__file__).resolve().parent.parent))

from conform import answered, compared
from row_files import rows_of

POOL = "pool p core 1 max 1 queue array 2 timeout no prestarted 0 handler abort"
# A client submits and gets two jobs, one after the end of the other. A job of class a gets a job of class b.
PLAN = """
pool = [{name = "p", core = 1, max = 1, queue = 2}]
class = [{name = "a", pool = "p", body = ["work 1", "submit b as x", "get x"]}, {name = "b", pool = "p", body = []}]
client = [{name = "c", count = 1, repeat = true, body = ["submit a as x", "get x", "submit b as y", "get y"]}]
"""
TIMED = PLAN.replace("queue = 2", "queue = 2, core_timeout = true")
WITHOUT_MAXIMUM = PLAN.replace("max = 1, queue = 2", 'max = "unbounded", queue = "unbounded", core_timeout = true')
ONCE = PLAN.replace("repeat = true", "repeat = false")
TWO_PATHS = PLAN.replace('class = [', 'class = [{name = "a_2", pool = "p", body = ["submit b as x", "submit b as y", "get y", "get x"]}, ').replace(
    '"submit b as y", "get y"]}]', '"submit a_2 as y", "get y"]}]')


def plan_with(*kinds):
    """Returns a plan in which kinds of clients have these bodies: c, c_2, c_3 and so on."""
    clients = "".join(f'{{name = "c{"" if number == 1 else f"_{number}"}", count = 1, repeat = true, body = {body}}}, ' for number, body in enumerate(kinds, 1))
    return PLAN[: PLAN.index("client = ")] + f"client = [{clients}]\n"


BOTH_THEN_GETS = '["submit b as x", "submit b as y", "get x", "get y"]'
ONE_AFTER_THE_OTHER = '["submit b as x", "get x", "submit b as y", "get y"]'
# A job of class a gets the first of two jobs alone.
ONE_GET_OF_A = PLAN.replace('"get x"]}, {name = "b"', '"get x", "submit b"]}, {name = "b"')


def submitted(by, job, name="b"):
    """Returns the lines of a job that does nothing, from its submit to its end."""
    return [f"{by} submit {job} {name} p", f"job {job} start", f"job {job} end"]


def got(by, job, name="b"):
    return [*submitted(by, job, name), f"{by} got {job}"]


def round_of(*lines, number=0):
    return [f"round {number} begin c", *lines, f"round {number} end"]


def job_of_a(*lines):
    """Returns the lines of a round with a job of class a. Lines 3 to 5 are the begin of the round, the submit and the start of the job."""
    return round_of("round 0 submit 0 a p", "job 0 start", *lines, "job 0 end", "round 0 got 0")


# The name, the plan, the lines after the first two (so the first of them is line 3), the deviations from the plan, and the findings
# that invalidate the result.
ROWS = [
    ("nothing is left out", PLAN, job_of_a(*got("job 0", 1))[:-1] + got("round 0", 2) + ["round 0 end"], [], []),
    ("all is left out", PLAN, round_of(), [], []),
    ("a submit is left out with its get", PLAN, round_of(*got("round 0", 0)), [], []),
    ("a get is left out alone", PLAN, job_of_a(*submitted("job 0", 1)), ["line 4: round 0 of kind c submitted a to pool p as job 0, whose own path matches no such class", "line 9: job 0 of class a in pool p ended without a get of job 1 of class b in pool p; its body has a get before its end"], []),
    ("the first part of that", PLAN, job_of_a(*submitted("job 0", 1))[:-3], [], []),
    ("another order", PLAN, round_of(*got("round 0", 0), *got("round 0", 1, "a")),
     ["line 8: round 0 of kind c submitted a to pool p; its body has no such submit after get b"], []),
    ("one submit too many", PLAN, job_of_a(*got("job 0", 1), *got("job 0", 2)),
     ["line 4: round 0 of kind c submitted a to pool p as job 0, whose own path matches no such class",
      "line 10: job 0 of class a in pool p submitted b to pool p; its body has no such submit after get b"], []),
    ("a get after a later submit", PLAN, round_of(*submitted("round 0", 0, "a"), *submitted("round 0", 1), "round 0 got 0", "round 0 got 1"),
     ["line 7: round 0 of kind c submitted b to pool p; after submit a, 1 job of class a is open; its body has only 0 at some point before its next such submit"], []),
    ("gets in another order", plan_with(BOTH_THEN_GETS), round_of(*submitted("round 0", 0), *submitted("round 0", 1), "round 0 got 1", "round 0 got 0"), [], []),
    ("a get that comes sooner", plan_with(BOTH_THEN_GETS), round_of(*got("round 0", 0), *got("round 0", 1)), [], []),
    ("a get that comes later", plan_with(ONE_AFTER_THE_OTHER), round_of(*submitted("round 0", 0), *submitted("round 0", 1), "round 0 got 0", "round 0 got 1"),
     ["line 7: round 0 of kind c submitted b to pool p; after submit b, 1 job of class b is open; its body has only 0 at some point before its next such submit"], []),
    ("the first part of that", plan_with(ONE_AFTER_THE_OTHER), round_of(*submitted("round 0", 0), *submitted("round 0", 1))[:-1],
     ["line 7: round 0 of kind c submitted b to pool p; after submit b, 1 job of class b is open; its body has only 0 at some point before its next such submit"], []),
    ("a get that a round has and its body does not", plan_with('["submit b"]'), round_of(*got("round 0", 0)), [], []),
    ("a get that a job has and its body does not", ONE_GET_OF_A, job_of_a(*got("job 0", 1), *got("job 0", 2)),
     ["line 4: round 0 of kind c submitted a to pool p as job 0, whose own path matches no such class",
      "line 13: job 0 of class a in pool p got b of pool p; its body has no such get after submit b"], []),
    ("gets of a job in another order, as far as its body has gets", ONE_GET_OF_A, job_of_a(*submitted("job 0", 1), *submitted("job 0", 2), "job 0 got 2"),
     ["line 4: round 0 of kind c submitted a to pool p as job 0, whose own path matches no such class",
      "line 9: job 0 of class a in pool p submitted b to pool p; after submit b, 1 job of class b is open; its body has only 0 at some point before its next such submit"], []),
    ("the best of two kinds", plan_with(ONE_AFTER_THE_OTHER, BOTH_THEN_GETS), round_of(*(line for job in range(3) for line in submitted("round 0", job))),
     ["line 10: round 0 of kind c submitted b to pool p; its body has no such submit after submit b"], []),
    ("a get a second time", PLAN, round_of(*got("round 0", 0), "round 0 got 0"), [], []),
    ("another one's future", PLAN.replace("count = 1", "count = 2"),
     round_of(*submitted("round 0", 0, "a"), *round_of("round 1 got 0", number=1), "round 0 got 0"),
     ["line 8: round 1 of kind c got job 0 of class a in pool p, which it did not submit"], []),
    ("a path, and another one's future", PLAN, round_of(*submitted("round 0", 0, "a")) + round_of("round 1 got 0", number=1),
     ["line 7: round 0 of kind c ended without a get of job 0 of class a in pool p; its body has a get before its end", "line 9: round 1 of kind c got job 0 of class a in pool p, which it did not submit"], []),
    ("of a kind the first path alone", PLAN, round_of(*submitted("round 0", 0, "a")) + round_of(*submitted("round 1", 1, "a"), number=1),
     ["line 7: round 0 of kind c ended without a get of job 0 of class a in pool p; its body has a get before its end"], []),
    ("a class that no plan has", PLAN, round_of(*got("round 0", 0, "z")),
     ["line 4: class z in pool p: not in the plan", "line 4: round 0 of kind c submitted z to pool p as job 0, which belongs to no class of the plan"], []),
    ("a kind that no plan has", PLAN, ["round 0 begin d", "round 0 end"], ["line 3: kind d: not in the plan"], []),
    ("two at once", PLAN, ["round 0 begin c", "round 1 begin c", "round 0 end", "round 1 end"], ["line 4: kind c: 2 at once, count is 1"], []),
    ("two, one after the other", PLAN, round_of() + round_of(number=1), [], []),
    ("two, where none begins again", ONCE, round_of() + round_of(number=1),
     ["line 5: kind c: 2 in all, count is 1 and it does not repeat"], []),
    ("the second path of two", TWO_PATHS, job_of_a(*submitted("job 0", 1), *submitted("job 0", 2), "job 0 got 2", "job 0 got 1"), [], []),
    ("the second path, where the first is submitted", TWO_PATHS.replace("submit a_2 as y", "submit a as y"),
     job_of_a(*submitted("job 0", 1), *submitted("job 0", 2), "job 0 got 2", "job 0 got 1"),
     ["line 4: round 0 of kind c submitted a to pool p; its body has no such submit at its begin"], []),
    ("a refused submit", PLAN, round_of("round 0 submit 0 a p", "round 0 refused 0"), [], ["line 5: the answer SAFE does not hold after this: job 0 of class a in pool p was refused"]),
    ("a timeout, and again", PLAN, round_of("round 0 submit 0 b p", "round 0 timeout 0", "job 0 start", "job 0 end", "round 0 got 0"), [], []),
    ("a timeout, and on", PLAN, round_of("round 0 submit 0 b p", "round 0 timeout 0"),
     ["line 6: round 0 of kind c ended without a get of job 0 of class b in pool p; its body has a get before its end"], []),
    ("two timeouts, and on", PLAN, round_of("round 0 submit 0 b p", "round 0 timeout 0", "round 0 interrupted 0"),
     ["line 7: round 0 of kind c ended without a get of job 0 of class b in pool p, after 2 gets of it that timed out or were interrupted; its body has a get before its end"], []),
    ("a job that the body never gets, and one that it gets", PLAN.replace('"submit a as x", "get x"', '"submit a"'), round_of("round 0 submit 0 a p", "round 0 submit 1 b p"),
     ["line 6: round 0 of kind c ended without a get of job 1 of class b in pool p; its body has a get before its end"], []),
    ("a timeout whose path is there", PLAN.replace(', "get y"', ""), round_of("round 0 submit 0 b p", "round 0 timeout 0"), [], []),
    ("a cancel", PLAN, round_of("round 0 submit 0 b p", "round 0 cancel 0", "round 0 got 0"), [], ["line 5: the answer SAFE does not hold after this: job 0 of class b in pool p was cancelled"]),
    ("a job that threw", PLAN.replace(', "get y"', ""), round_of("round 0 submit 0 b p", "job 0 start", "job 0 threw"), [],
     ["line 6: the answer SAFE does not hold after this: job 0 of class b in pool p threw an exception"]),
    ("a call of invokeAny", PLAN, round_of("round 0 any p"), [], ["line 4: the answer SAFE does not hold after this: round 0 of kind c called invokeAny in pool p"]),
    ("a job that is removed", PLAN.replace(', "get y"', ""), round_of("round 0 submit 0 b p", "removed 0"), [],
     ["line 5: the answer SAFE does not hold after this: job 0 of class b in pool p was removed from its queue"]),
    ("jobs that nobody recorded", PLAN, ["unseen p 3"], [], ["line 3: the answer SAFE does not hold after this: 3 jobs were run in pool p that no line mentions"]),
    ("another one's refused job", PLAN.replace("count = 1", "count = 2"),
     ["round 0 begin c", "round 0 submit 0 b p", "round 0 refused 0", "job 0 start", "job 0 end", *round_of("round 1 got 0", number=1), "round 0 end"],
     ["line 9: round 1 of kind c got job 0 of class b in pool p, which it did not submit"], ["line 5: the answer SAFE does not hold after this: job 0 of class b in pool p was refused"]),
    ("a refused job that its submitter got, and then another one", PLAN.replace("count = 1", "count = 2"),
     ["round 0 begin c", "round 0 submit 0 b p", "round 0 refused 0", "job 0 start", "job 0 end", "round 0 got 0", *round_of("round 1 got 0", number=1), "round 0 end"],
     [], ["line 5: the answer SAFE does not hold after this: job 0 of class b in pool p was refused"]),
    ("another size", PLAN, [POOL.replace("max 1", "max 2")], ["line 3: pool p: max 2, plan 1"], []),
    ("another size, and one more later", PLAN, [POOL.replace("max 1", max) for max in ("max 2", "max 2", "max 3", "max 2")],
     ["line 3: pool p: max 2, plan 1", "line 5: pool p: max 3, plan 1"], []),
    ("prestarted in a further line", PLAN, [POOL.replace("prestarted 0", "prestarted 1")], [], []),
    ("another handler", PLAN, [POOL.replace("abort", "discard")], [], []),
    ("core threads that may time out", PLAN, [POOL.replace("timeout no", "timeout yes")], ["line 3: pool p: core threads may time out"], []),
    ("a plan whose core threads may time out", TIMED, [POOL.replace("timeout no", "timeout yes")],
     ["line 2: pool p: core threads never time out, plan core_timeout = true"], []),
    ("both in a plan with a capacity", TIMED, [POOL.replace("timeout no", "timeout yes").replace("max 1", "max 2")],
     ["line 2: pool p: core threads never time out, plan core_timeout = true", "line 3: pool p: max 2, plan 1"], []),
    ("a plan without a maximum", WITHOUT_MAXIMUM,
     [f"pool p core 1 max {max} queue linked 1000000000 timeout yes prestarted 0 handler abort" for max in (1_000_000_000, 1_000_001, 1_000_000, 1)],
     ["line 2: pool p: max 1, plan unbounded", "line 2: pool p: queue of another kind (array)", "line 2: pool p: queue 2, plan unbounded",
      "line 2: pool p: core threads never time out, plan core_timeout = true", "line 5: pool p: max 1000000, plan unbounded"], []),
    ("a plan with a maximum that has an effect", WITHOUT_MAXIMUM.replace('max = "unbounded"', "max = 3"),
     [f"pool p core 1 max {max} queue linked 1000000000 timeout yes prestarted 0 handler abort" for max in (3, 2, 1_000_000_000)],
     ["line 2: pool p: max 1, plan 3", "line 2: pool p: queue of another kind (array)", "line 2: pool p: queue 2, plan unbounded",
      "line 2: pool p: core threads never time out, plan core_timeout = true", "line 4: pool p: max 2, plan 3",
      "line 5: pool p: max 1000000000, plan 3"], []),
    ("a synchronous queue", PLAN, [POOL.replace("array 2", "synchronous 0")],
     ["line 3: pool p: queue of another kind (synchronous)", "line 3: pool p: queue 0, plan 2"], []),
    ("a plan with a queue of 0", PLAN.replace("queue = 2", "queue = 0, may_reject = true"), [POOL.replace("array 2", "synchronous 0")],
     ["line 2: pool p: queue of another kind (array)", "line 2: pool p: queue 2, plan 0"], []),
    ("a plan with an unbounded queue", PLAN.replace("queue = 2", 'queue = "unbounded"'), [],
     ["line 2: pool p: queue of another kind (array)", "line 2: pool p: queue 2, plan unbounded"], []),
    ("another size beside an unbounded queue", PLAN.replace("queue = 2", 'queue = "unbounded"'),
     [POOL.replace("array 2", queue).replace("max 1", max) for queue, max in
      (("linked 1000000000", "max 8"), ("linked 999999999", "max 1"), ("other 1000000000", "max 1"), ("linked 1000000000", "max 1000000000"))],
     ["line 2: pool p: queue of another kind (array)", "line 2: pool p: queue 2, plan unbounded",
      "line 4: pool p: queue 999999999, plan unbounded", "line 5: pool p: queue of another kind (other)"], []),
    ("an unbounded queue, and a plan with a capacity", PLAN.replace("queue = 2", "queue = 1000000"), [POOL.replace("array 2", "linked 1000000000")],
     ["line 2: pool p: queue 2, plan 1000000", "line 3: pool p: queue 1000000000, plan 1000000"], []),
    ("a plan that prestarts", PLAN.replace("queue = 2", "queue = 2, prestart = true"), [], ["line 2: pool p: 0 threads prestarted, plan 1"], []),
    ("a pool of the plan alone", PLAN.replace("pool = [", 'pool = [{name = "q", core = 1, max = 1, queue = 1}, '), [], ["pool q: in the plan and not in the recording"], []),
]


def in_order(lines):
    """Returns the lines in the order of their numbers. Lines without a number come last."""
    return sorted(lines, key=lambda line: int(line.split(" ")[1][:-1]) if line.startswith("line ") else 10**9)


def wrong_rows():
    wrong = []
    for name, plan, lines, deviations, voids in ROWS:
        end = [] if name == "the first part of that" else ["end"]
        found = compared(plan, "\n".join(["recording 1", POOL, *lines, *end]) + "\n")
        if found != in_order(deviations + voids):
            wrong.append(f"conform, {name}: {found}, expected {deviations + voids}")
    print(f"conform: {len(ROWS)} rows written by hand, {len(wrong)} with other findings", flush=True)
    return wrong


def wrong_stored_rows():
    """Returns a text for each test row for which `conform.py` has other findings. Skips rows with a bad recording or an undecided
    answer."""
    wrong, rows = [], 0
    for name, given, answer in rows_of("recorded_conforms", "conform"):
        plan, bar, recording = given.partition("%%\n")
        expected, _, status = answer.rpartition("\nstatus ")
        if not bar or status not in ("0", "1") or "not decided" in expected:
            continue
        rows += 1
        found, _ = answered(plan, recording)
        if found != expected.split("\n"):
            wrong.append(f"conform, row {name}: {found}, but the row has {expected}")
    print(f"conform: {rows} rows of tests, {len(wrong)} with other findings", flush=True)
    return wrong


def wrong_learned_rows():
    """Returns a text for each test row for which the findings of `conform.py` are not the comments at the head of the learned plan."""
    wrong, rows = [], 0
    for name, recording, answer in rows_of("recorded_learns", "learn"):
        plan, _, status = answer.rpartition("\nstatus ")
        if status != "0":
            continue
        rows += 1
        head = plan.partition("\n\n")[0].splitlines()
        comments = [line.removeprefix("# ") for line in head[2:] if not line.startswith(("# Unfinished.", "# Pool "))]
        found = compared(plan, recording)
        if found != comments:
            wrong.append(f"conform, row {name}: {found}, but the comments of the learned plan are {comments}")
    print(f"conform: {rows} rows of tests of learned plans, {len(wrong)} with other findings", flush=True)
    return wrong
