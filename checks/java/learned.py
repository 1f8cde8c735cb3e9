"""Checks the plans that `sizing learn` derives from recordings of services. The check runs each service with the recorder; `learn`
derives its plan, and `fit` finds sizes for the plan. The check runs the service again with these sizes, for a thousand rounds in total,
in which no submit may be refused and no run may hang. Then it lowers one number by one. If `refute` finds a witness against the
resulting plan, the check replays the witness, also on executors, and runs the service with that number.

The check must find deliberate errors: a plan with another size, count or body; a recording without one of its gets; and a run with a
refused submit, or a run that hung, that is reported as right.
"""

import re
import tempfile
from pathlib import Path
from typing import NamedTuple

from conform import MAX_SIZE, compared
from java_text import UNBOUNDED, case
from read_plans import read_plan
from recording import read
from replays import KINDS, on_executors
from services import IN_BODY, VOID, VOIDS, deviations, other_plans, plan_of, put
from small_plans import Plan, text_of

SERVICES = [name for name in VOIDS if name != "example"]
HEAD = re.compile(r"# Learned from a recording\. Rounds: (\d+)\. Jobs: (\d+)\.\n# Paths, classes, kinds and pools that this run did not use are missing\. .*\n(?:# Unfinished\. .*\n)?")
# The line of a pool. It has no maximum if the queue is unbounded.
POOL = re.compile(r"pool (\w+): core (\d+)(?: \(now \d+\))?(?:, max (\d+)(?: \(now \d+\))?, queue (\d+)(?: \(now \d+\))?|, queue unbounded)")
ROUNDS = 1000
# The number of rounds of a run, for services that need several runs. Their clients do not repeat, so each has one round in a run.
ROUNDS_OF_A_RUN = {"orders": 10, "hurried-prices": 50}
# A run without progress for this number of seconds has stopped.
SECONDS = 30
# The maximum time in microseconds that a slow thread waits before it takes a job. The queue is a subclass, which no plan can name.
SLOW = 2000
OTHER_QUEUE = "queue of another kind (other)"
# The number of runs of a service with a number that is lowered by one.
TRIES = 5
SECONDS_OF_A_TRY = 5
# The exit statuses of `refute` for `safe` and for `not decided`.
NO_WITNESS = (0, 4)
FROM_ONE = "from 1"
# The number of gets that are removed from a recording, one at a time.
GETS_LEFT_OUT = 10
# The plans for which no sizes exist if all clients repeat, derived by hand: no thread waits for a letter of `orders`, or for some of the
# hurried prices. In the services each buyer and each hurried client has one round, so there are sizes for all plans.
NEVER_GOT = {
    "orders": r"no fitting sizes found class reserve action 0: submits without end, and no get waits for these jobs",
    "hurried-prices": r"no fitting sizes found client hurried action \d: submits without end, and no get waits for these jobs",
}
# The ending of the witness, derived by hand, if `fit` starts from sizes of 1 and the first size that is needed is lowered by one. Only the
# services of this table are run with sizes of `fit`: no size of `spring-boot` is needed, since no job gets a job of its own pool.
WITNESS = {
    # the requests of seven clients, all of them queued while the one thread is idle
    "web-and-database": "refused by web",
    # three reports hold all of three threads, and no thread is left for their sections
    "reports": "stuck forever",
    # ten orders, none of them done
    "orders": "refused by front",
    # the three rows of the window, all of them queued while the one thread is idle
    "importer": "refused by rows",
    # the prices of two patient clients and of four hurried clients, all of them queued while the one thread is idle
    "hurried-prices": "refused by prices",
    # three pages hold all of three threads, and no thread is left for their parts
    "fixed-pools": "stuck forever",
}


class Learned(NamedTuple):
    """The answer of `learn` to a recording: its text, its comments about findings, and the plan."""

    text: str
    comments: list
    plan: Plan


class Sized(NamedTuple):
    """A service with the sizes that `fit` found, and the sizes from which `fit` started."""

    name: str
    began: str
    plan: Plan

    def __str__(self):
        return f"{self.name}, {self.began}"


class Ran(NamedTuple):
    """A run of a service: the requested number of rounds, the output, and the recording."""

    rounds: int
    printed: str
    recording: str


def part(tools):
    with tempfile.TemporaryDirectory() as folder:
        files = {name: Path(folder) / f"{name}.recording" for name in SERVICES}
        tools.run_java("services.Services", *(word for name, file in files.items() for word in (name, "none", file)))
        recordings = {name: file.read_text() for name, file in files.items()}
    plans = {name: learned(tools, recording) for name, recording in recordings.items()}
    wrong = [f"learned, {name}: no plan" for name, derived in plans.items() if derived is None]
    if wrong:
        return wrong
    sized, wrong = sizes_of(tools, plans)
    ran = [(one, runs(tools, one.name, one.plan)) for one in sized]
    slow = [(one, runs(tools, one.name, one.plan, SLOW)) for one in sized]
    return [*wrong, *as_recorded(tools, plans, recordings), *as_written(tools, plans, recordings), *slips_of_plans(tools, plans, recordings),
            *slips_of_recordings(tools, plans, recordings), *without_refusal(tools, ran, ""), *without_refusal(tools, slow, ", threads slow to take"),
            *slips_of_sizes(tools, ran), *one_less(tools, ran)]


def conformed(tools, plan, recording):
    """Returns the lines of `sizing conform`, or none if it prints `conforms`. Raises AssertionError if `conform.py` has other findings."""
    status, printed = tools.sizing("conform", f"{plan}%%\n{recording}")
    lines = printed.splitlines()
    found = [] if lines == ["conforms"] else lines
    if status != bool(found) or found != compared(plan, recording):
        raise AssertionError(f"sizing conform ends with {status}: {lines[:3]}, conform.py says {compared(plan, recording)[:3]} of\n{plan}")
    return found


def voids(found):
    return [re.sub(VOID, "", re.sub(r"job \d+", "job N", line)) for line in found if re.match(VOID, line)]


# ---- the plan


def learned(tools, recording):
    """Returns the answer of `learn`, or None if it derives no plan or its status does not say whether the plan has comments."""
    status, text = tools.sizing("learn", recording)
    head = HEAD.match(text)
    if status != ("\n# line " in text) or not head or list(map(int, head.groups())) != [len(read(recording).rounds), len(read(recording).jobs)]:
        return None
    comments = text[head.end():].split("\n\n")[0].splitlines() if text[head.end()] != "\n" else []
    # the other comments count what the plan leaves out, and are no findings
    findings = [line.removeprefix("# ") for line in comments if line.startswith("# line ")]
    return Learned(text, findings, read_plan(text))


def as_recorded(tools, plans, recordings):
    """Checks that `conform` reports only the comments of the learned plan, and that these are the expected ones, derived by hand."""
    wrong = []
    for name, derived in plans.items():
        found = conformed(tools, derived.text, recordings[name])
        if found != derived.comments or deviations(found) or voids(found) != VOIDS[name]:
            wrong.append(f"learned, {name}: conform prints {found}, but the comments are {derived.comments}")
    comments = sum(len(derived.comments) for derived in plans.values())
    print(f"learned: {len(plans)} plans, with {comments} comments; conform disagrees on {len(wrong)}", flush=True)
    return wrong


def as_written(tools, plans, recordings):
    """Checks that each learned plan agrees with the plan that was written by hand, as far as a run shows it."""
    wrong, bodies, alike = [], 0, 0
    for name, derived in plans.items():
        written = read_plan(plan_of(name))
        found = conformed(tools, plan_of(name), recordings[name])
        wrong += [f"learned, {name}: {difference}" for difference in differences(derived.plan, written)]
        if deviations(found) or voids(found) != VOIDS[name]:
            wrong.append(f"learned, {name}: for the plan written by hand conform prints {found}")
        ours, theirs = bodies_of(derived.plan), bodies_of(written)
        bodies += len(ours)
        alike += sum(theirs.get(key) == body for key, body in ours.items())
    print(f"learned and written by hand: {len(plans)} plans, {alike} of {bodies} bodies equal, {len(wrong)} wrong", flush=True)
    return wrong


def differences(plan, written):
    """Yields the differences between two plans in pools, classes and client kinds, without their bodies. Their order does not matter."""
    for what, ours, theirs in zip(("pools", "classes", "kinds"), tables(plan), tables(written)):
        if ours != theirs:
            yield f"{what} {sorted(ours)}, written {sorted(theirs)}"


def tables(plan):
    return (set(plan.pools), {(one.name, plan.pools[one.pool].name) for one in plan.classes},
            {(client.name, client.count, client.repeat) for client in plan.clients})


def bodies_of(plan):
    """Returns the body of each class and client kind: the submits with the names of their classes, and the gets."""
    return {(sort, one.name): [(what, plan.classes[operand].name if what == "submit" else operand) for what, operand in one.body]
            for sort, entries in (("class", plan.classes), ("kind", plan.clients)) for one in entries}


def with_room(plan):
    """Returns the plan with each maximum that is less than its core raised to the core, and with a maximum for each bounded queue."""
    return plan._replace(pools=[pool._replace(max=max(pool.core, pool.max if pool.unbounded else min(pool.max, MAX_SIZE))) for pool in plan.pools])


def is_lawful(plan):
    return all(pool.core and pool.queue for pool in plan.pools) and all(client.count for client in plan.clients)


def slips_of_plans(tools, plans, recordings):
    """Checks that `conform` finds a wrong size, count or body in a plan, and that `differences` finds a wrong size or count."""
    missed, tried, distinguished = [], 0, 0
    for name, derived in plans.items():
        for what, other in other_plans(derived.plan):
            other = with_room(other)
            if not is_lawful(other):
                continue
            tried += 1
            if not deviations(conformed(tools, text_of(other), recordings[name])):
                missed.append(f"learned, {name}: conform does not find the error '{what}' in the plan")
            if f" {IN_BODY} " not in what:
                distinguished += 1
                if not list(differences(other, derived.plan)):
                    missed.append(f"learned, {name}: the comparison does not find the error '{what}' in the plan")
    print(f"deliberate errors in learned plans: {tried} for conform and {distinguished} for the comparison, {len(missed)} not found", flush=True)
    return missed


def slips_of_recordings(tools, plans, recordings):
    """Checks that a recording without a get does not conform, and that another plan is learned from it. Skips gets of hurried clients."""
    missed, tried = [], 0
    for name, derived in plans.items():
        lines = recordings[name].splitlines(keepends=True)
        hurried = {f"round {one.number}" for one in read(recordings[name]).rounds if one.name == "hurried"}
        gets = [at for at, line in enumerate(lines) if " got " in line and line.split(" got ")[0] not in hurried]
        for at in gets[:: max(1, len(gets) // GETS_LEFT_OUT)]:
            tried += 1
            shorter = "".join(lines[:at] + lines[at + 1 :])
            other = learned(tools, shorter)
            if not deviations(conformed(tools, derived.text, shorter)) or other is not None and bodies_of(other.plan) == bodies_of(derived.plan):
                missed.append(f"learned, {name}: the removal of line {at + 1}, {lines[at]!r}, is not found")
    print(f"deliberate errors in recordings: {tried} without a get, {len(missed)} not found", flush=True)
    return missed


# ---- the sizes


def sizes_of(tools, plans):
    """Returns each learned plan with the sizes that `fit` finds, starting from those of the service and from 1. Checks that there are no
    sizes for the plans in NEVER_GOT if all clients repeat."""
    sized, wrong = [], []
    for name in WITNESS:
        derived = plans[name]
        ones = derived.plan._replace(pools=[of_one(pool) for pool in derived.plan.pools])
        for began, plan in (("its own sizes", derived.plan), (FROM_ONE, ones)):
            found, said = fitted(tools, plan)
            if found is None:
                wrong.append(f"learned, {name}, {began}: fit prints {said}")
            else:
                sized.append(Sized(name, began, found))
                print(f"sizes of {sized[-1]}: {sizes_text(found)}", flush=True)
        again = derived.plan._replace(clients=[client._replace(repeat=True) for client in derived.plan.clients])
        found, said = fitted(tools, again)
        if (found is None) != (name in NEVER_GOT) or not re.fullmatch(NEVER_GOT.get(name, "sizes"), said):
            wrong.append(f"learned, {name}, if all clients repeat: fit prints {said}")
    return sized, wrong


def of_one(pool):
    """Returns the pool with sizes of 1. An unbounded queue stays unbounded."""
    return pool._replace(core=1, max=1, queue=pool.queue if pool.unbounded else 1)


def sizes_text(plan):
    return ", ".join(f"{pool.name} {pool.core}/unbounded" if pool.unbounded else f"{pool.name} {pool.core}/{pool.max}/{pool.queue}" for pool in plan.pools)


def fitted(tools, plan):
    """Returns the plan with the sizes that `fit` finds, and the word `sizes`; otherwise None, and the output of `fit` or its fault."""
    status, printed = tools.sizing("fit", text_of(plan))
    lines = printed.splitlines()
    sizes = [POOL.fullmatch(line) for line in lines[:-1]]
    if not sizes or not all(sizes):
        return None, " ".join(lines)
    pools = [pool._replace(core=int(core), max=int(most or core), queue=int(queue or pool.queue))
             for pool, (name, core, most, queue) in zip(plan.pools, (size.groups() for size in sizes), strict=True) if pool.name == name]
    changes = printed.count(" (now ")
    _, bundle = tools.sizing("fit", text_of(plan), "--bundle")
    if (lines[-1] != f"changes {changes}" or status != bool(changes) or changes != numbers_changed(plan.pools, pools)
            or read_plan(bundle.split("%%\n")[0]).pools != pools or tools.sizing("check", bundle)[0]):
        return None, f"answers that are not of one plan: {lines}"
    return plan._replace(pools=pools), "sizes"


def numbers_changed(pools, others):
    """Returns the number of sizes that differ. Beside an unbounded queue the maximum is no size."""
    return sum(one != other for pool, found in zip(pools, others, strict=True) for one, other in zip(numbers_of(pool), numbers_of(found)))


def numbers_of(pool):
    return (pool.core, pool.queue) if pool.unbounded else (pool.core, pool.max, pool.queue)


# ---- runs


def runs(tools, name, plan, slow=0, seconds=SECONDS, number=None):
    """Runs the service with the plan's sizes, `number` times. By default there are enough runs for all rounds."""
    rounds = ROUNDS_OF_A_RUN.get(name, ROUNDS)
    sizes = " ".join(f"{pool.name} {pool.core} {pool.max} {UNBOUNDED if pool.unbounded else pool.queue}" for pool in plan.pools)
    with tempfile.TemporaryDirectory() as folder:
        files = [Path(folder) / f"{at}.recording" for at in range(number or ROUNDS // rounds)]
        printed = tools.run_java("services.Sized", given="".join(f"{name} {rounds} {seconds} {slow} {file} {sizes}\n" for file in files))
        return [Ran(rounds, line, file.read_text()) for line, file in zip(printed, files, strict=True)]


def met(run):
    """Returns a text for each event that no run of a safe plan may have, such as a refused submit, from its output and recording."""
    printed, seen = counts(run), read(run.recording)
    cancelled = {act.job for actor in seen.rounds + seen.jobs for act in actor.acts if act.word == "cancel"}
    found = [f"{printed[what]} {what}" for what in ("refused", "failed", "stopped") if printed[what]]
    found += [f"{number} of {run.rounds} rounds {what}" for number, what in (
        (printed["rounds"], "printed"), (len(seen.rounds), "recorded"), (sum(one.last is not None for one in seen.rounds), "ended")) if number != run.rounds]
    refused = sum(job.refused for job in seen.jobs)
    open_jobs = sum(job.last is None and not job.refused and job not in cancelled for job in seen.jobs)
    found += [f"{number} jobs {what}, by the recording" for number, what in ((refused, "refused"), (open_jobs, "not done")) if number]
    if refused != printed["refused"]:
        found.append(f"{refused} jobs refused by the recording, {printed['refused']} by the pools")
    return found


def counts(run):
    return {what: int(number) for what, number in (words.split() for words in run.printed.split(", "))}


def without_refusal(tools, ran, how):
    """Checks that no run has an event as in `met`, and that each run conforms to its plan, except for the kind of the slow queue."""
    wrong = []
    for one, all_runs in ran:
        for run in all_runs:
            found = [line for line in conformed(tools, text_of(one.plan), run.recording) if not how or not line.endswith(OTHER_QUEUE)]
            if met(run) or deviations(found) or voids(found) != VOIDS[one.name]:
                wrong.append(f"learned, {one}: a run has {met(run)}, and conform prints {found}")
        rounds, jobs = (sum(counts(run)[what] for run in all_runs) for what in ("rounds", "jobs"))
        print(f"runs of {one}{how}: {len(all_runs)}, {rounds} rounds, {jobs} jobs, refused {sum(counts(run)['refused'] for run in all_runs)}, "
              f"stopped {sum(counts(run)['stopped'] for run in all_runs)}", flush=True)
    print(f"runs with these sizes{how}: {sum(len(all_runs) for _, all_runs in ran)}, with {len(wrong)} wrong", flush=True)
    return wrong


def slips_of_sizes(tools, ran):
    """Checks that the recording of a run with the sizes of `fit` conforms to no plan in which a size is lowered by one."""
    missed, tried = [], 0
    for one, all_runs in ran:
        for what, other in less(one.plan):
            tried += 1
            found = conformed(tools, text_of(other), all_runs[0].recording)
            if not any(re.match(rf"line \d+: pool {what.split()[0]}: {what.split()[1]} \d+, plan \d+$", line) for line in found):
                missed.append(f"learned, {one}: the error '{what}' is not found: {found}")
    print(f"deliberate errors in sizes: {tried} lowered by one, {len(missed)} not found", flush=True)
    return missed


# ---- a number that is lowered by one


def less(plan):
    """Yields the plan with one size lowered by one, for each size in order. If core and max are equal, lowers both. An unbounded queue
    stays unbounded."""
    for at, pool in enumerate(plan.pools):
        changes = [{"core": pool.core - 1, "max": pool.max - (pool.core == pool.max)}]
        changes += [{"max": pool.max - 1}] if pool.max > pool.core else []
        for change in [*changes, *([] if pool.unbounded else [{"queue": pool.queue - 1}])]:
            if 0 not in change.values():
                yield f"{pool.name} " + " ".join(f"{what} {number}" for what, number in change.items() if number != getattr(pool, what)), \
                    plan._replace(pools=put(plan.pools, at, pool._replace(**change)))


def one_less(tools, ran):
    """Lowers the first size of each plan for which `refute` then finds a witness, replays the witness, and runs the service."""
    wrong, missed, found, all_met = [], [], 0, 0
    for one, all_runs in ran:
        safe, status, printed = [], None, ""
        for what, plan in less(one.plan):
            status, printed = tools.sizing("refute", text_of(plan))
            if status == 1:
                break
            if status not in NO_WITNESS:
                wrong.append(f"learned, {one}, {what}: refute ends with {status}: {printed}")
            safe.append(f"{what} ({printed.split(':')[0]})")
        before = "; no witness before with " + ", ".join(safe) if safe else ""
        if one.began == FROM_ONE and (status != 1 or not printed.startswith(WITNESS[one.name])):
            wrong.append(f"learned, {one}: refute ends with {status}: {printed}")
        if status != 1:
            print(f"one size lowered, {one}: no witness{before}", flush=True)
            continue
        found += 1
        wrong += [f"learned, {one}, {what}: {line}" for line in replayed(tools, one.plan, plan, printed)]
        tries = runs(tools, one.name, plan, SLOW, SECONDS_OF_A_TRY, TRIES)
        bad = [run for run in tries if met(run)]
        all_met += bool(bad)
        missed += not_distinguished(one, all_runs[0], bad)
        first = min((counts(run)["rounds"] for run in bad), default="no")
        print(f"one size lowered, {one}, {what}: {printed.splitlines()[0]}; replayed, and {len(bad)} of {len(tries)} runs are bad, the first after "
              f"{first} rounds{before}", flush=True)
    print(f"witnesses: {found} of {len(ran)}, {all_met} of them with bad runs, {len(wrong)} wrong; deliberate errors in runs not found: {len(missed)}", flush=True)
    return wrong + missed


def replayed(tools, right, plan, printed):
    """Checks that the witness ends as `refute` says, in `sizing replay` and on executors, and that it does not with the right sizes."""
    status, bundle = tools.sizing("refute", text_of(plan), "--bundle")
    text, events = bundle.rsplit("%%\n", 1)
    ended, answer = tools.sizing("replay", bundle)
    lines, wrong = answer.splitlines(), []
    is_stuck = printed.startswith("stuck")
    end = ": stuck yes" if is_stuck else ": " + printed.split(",")[0]
    if status or ended != 1 or read_plan(text).pools != plan.pools or not lines[-2].endswith(end):
        wrong.append(f"the witness is {printed.splitlines()[0]!r}, and its replay ends in {lines[-2:]}")
    steps = [*events.splitlines(), "counts", "run free 0"]
    cases = [case(read_plan(text)._replace(pools=pools), kind, False, steps) for pools in (plan.pools, right.pools) for kind in KINDS]
    answers = on_executors(tools, cases)
    for kind, executors in zip(KINDS, answers):
        if executors[: len(lines)] != lines or is_stuck == executors[-1].endswith("unfinished 0"):
            wrong.append(f"on executors, {kind}: {executors}, but replay prints {lines}")
    by_replay = tools.sizing("replay", f"{text_of(right)}%%\n{events}")[1].splitlines()
    for executors in [by_replay, *answers[len(KINDS) :]]:
        if any("refused by" in line or line.endswith("stuck yes") for line in executors):
            wrong.append(f"with the right sizes: {executors}")
    return wrong


def not_distinguished(one, right, bad):
    """Checks that a bad run is found if either its output or its recording is replaced by that of a good run."""
    slips = [wrong for run in bad for wrong in (run._replace(printed=right.printed), run._replace(recording=right.recording))]
    return [f"learned, {one}: a bad run is not found if its output or recording is replaced" for run in slips if not met(run)]
