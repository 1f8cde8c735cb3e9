"""Runs services with a few pools each, with the recorder of java/. Each recording must satisfy the rules of docs/RECORDING.md, and
conform to the service's plan.

The check must find deliberate errors: in the service (another path, one more client, a pool with one more thread, or a pool that gets
one more thread later), in the plan (another size or count, a missing submit, a get that is too early), and in the recording (a missing line). With one
more client, four users instead of three take all threads of the pool of `reports` and wait forever, so that recording is cut off.
"""

import re
import tempfile
from collections import Counter
from pathlib import Path

from conform import Comparison, compared
from conform_rows import wrong_learned_rows, wrong_rows, wrong_stored_rows
from read_plans import read_plan
from recording import BadLine, read
from small_plans import NO_MAXIMUM

HERE = Path(__file__).resolve().parent / "services"
EXAMPLE = Path(__file__).resolve().parent.parent.parent / "examples" / "recordings" / "web-and-database"
# The findings that invalidate the result in each run of a service, derived by hand: only one of the hurried clients cancels a job.
VOIDS = {
    "web-and-database": [],
    "example": [],
    "reports": [],
    "orders": [],
    "importer": [],
    "hurried-prices": ["job N of class slow in pool prices was cancelled"],
    "fixed-pools": [],
    "spring-boot": [],
}
VOID = r"^line \d+: the answer SAFE does not hold after this: "
RUNS = 4
FIRST_PARTS = 10
# The maximum number of lines of a recording from which lines are removed one at a time.
MOST_LINES = 200
# The prefix of the names of deliberate errors in bodies.
IN_BODY = "body"
# The expected finding for each deliberate error in a service.
SLIPS = {
    "path": r"; its body has no such submit |; its body has only \d+ at some point before its next such submit$|ended without a get of job .*; its body has a get before its end$",
    "count": r"kind .*: [0-9]+ (at once|in all), count is ",
    # over an unbounded queue the core
    "size": r"^line 2: pool .*: (max|core) ",
    "change": r"pool .*: (max|core) ",
}


def part(tools):
    runs = [(name, slip, number) for name in VOIDS for slip, number in [*(("none", number) for number in range(RUNS)), *((slip, 0) for slip in SLIPS)]]
    with tempfile.TemporaryDirectory() as folder:
        files = {run: Path(folder) / f"{run[0]}-{run[1]}-{run[2]}.recording" for run in runs}
        tools.run_java("services.Services", *(word for run, file in files.items() for word in (run[0], run[1], file)))
        texts = {run: file.read_text() for run, file in files.items()}
    texts["example", "none", "checked in"] = EXAMPLE.with_suffix(".recording").read_text()
    return [*wrong_rows(), *wrong_stored_rows(), *wrong_learned_rows(), *as_planned(texts), *slips_of_services(texts), *slips_of_plans(texts), *slips_of_recordings(texts), *certified(tools)]


def deviations(found):
    """Returns the deviations from the plan, without the findings that invalidate the result."""
    return [line for line in found if not re.match(VOID, line)]


def plan_of(name):
    return (EXAMPLE.with_suffix(".toml") if name == "example" else HERE / f"{name}.toml").read_text()


def as_planned(texts):
    """Checks that each recording conforms to its plan, as a whole and cut off at several places."""
    wrong, lines, jobs, parts = [], 0, 0, 0
    for (name, slip, _), text in texts.items():
        if slip != "none":
            continue
        found = compared(plan_of(name), text)
        said = [re.sub(VOID, "", re.sub(r"job \d+", "job N", line)) for line in found if re.match(VOID, line)]
        if deviations(found) or said != VOIDS[name] or not read(text).closed:
            wrong.append(f"services, {name}: {found}")
        lines += text.count("\n")
        jobs += len(read(text).jobs)
        for cut in range(len("recording 1\n"), len(text), len(text) // FIRST_PARTS):
            parts += 1
            found = deviations(compared(plan_of(name), text[:cut]))
            if found:
                wrong.append(f"services, {name}, cut off after {cut} bytes: {found}")
    print(f"services: {len(VOIDS)} with {RUNS} runs each, and a recording of examples/, {lines} lines of {jobs} jobs, and {parts} first parts of them, with {len(wrong)} wrong", flush=True)
    return wrong


def slips_of_services(texts):
    missed = []
    for (name, slip, _), text in texts.items():
        if slip != "none":
            found = deviations(compared(plan_of(name), text))
            if not any(re.search(SLIPS[slip], line) for line in found):
                missed.append(f"services, {name}: the error '{slip}' is not found: {found}")
    print(f"deliberate errors in services: {len(VOIDS) * len(SLIPS)}, {len(missed)} not found", flush=True)
    return missed


def slips_of_plans(texts):
    missed, tried = [], 0
    for name in VOIDS:
        recording, plan = read(texts[name, "none", 0]), read_plan(plan_of(name))
        for what, other in other_plans(plan):
            tried += 1
            if not deviations(Comparison(other, recording).all()):
                missed.append(f"services, {name}: the error '{what}' in the plan is not found")
    print(f"deliberate errors in plans: {tried}, {len(missed)} not found", flush=True)
    return missed


def other_plans(plan):
    """Yields plans that differ from the service's plan in one size, count or body. The service does not follow them, since it reaches each
    count of its plan, and takes each path that the plan has."""
    for at, pool in enumerate(plan.pools):
        for what, change in other_sizes(pool):
            yield f"{pool.name} {what}", plan._replace(pools=put(plan.pools, at, pool._replace(**change)))
    for at, client in enumerate(plan.clients):
        yield f"{client.name} count {client.count - 1}", plan._replace(clients=put(plan.clients, at, client._replace(count=client.count - 1)))
        if client.repeat:
            yield f"{client.name} does not repeat", plan._replace(clients=put(plan.clients, at, client._replace(repeat=False)))
        for change, body in narrower(client.body):
            yield f"{client.name} {change}", plan._replace(clients=put(plan.clients, at, client._replace(body=body)))
    for at, one in enumerate(plan.classes):
        for change, body in narrower(one.body):
            yield f"{one.name} {change}", plan._replace(classes=put(plan.classes, at, one._replace(body=body)))


def other_sizes(pool):
    """Yields the changes of one size of a pool, and of whether core threads may time out. Over an unbounded queue the maximum has an effect only
    if they may, and the queue gets a capacity."""
    if pool.unbounded:
        yield f"core {pool.core + 1}", {"core": pool.core + 1, "max": pool.core + 1}
        yield "queue 1000000", {"unbounded": False}
    else:
        for key, value in (("core", pool.core + 1), ("max", pool.max + 1), ("queue", pool.queue - 1)):
            yield f"{key} {value}", {key: value}
    if pool.unbounded and pool.core_timeout:
        most = pool.core if pool.max == NO_MAXIMUM else NO_MAXIMUM
        yield f"max {most}", {"max": most}
    yield "prestart True", {"prestart": True}
    yield f"core_timeout {not pool.core_timeout}", {"core_timeout": not pool.core_timeout}


def put(entries, at, entry):
    return [*entries[:at], entry, *entries[at + 1:]]


def narrower(body):
    """Yields bodies that cover less, and how each differs: without a submit and its get, or with a get before the last submit that
    precedes it."""
    for position, (what, operand) in enumerate(body):
        if what == "submit":
            order = [at for at in range(len(body)) if at != position and body[at] != ("get", position)]
            yield f"{IN_BODY} without submit {position}", in_order(body, order)
        last = max((at for at in range(position) if body[at][0] == "submit"), default=None)
        if what == "get" and last != operand:
            order = [*range(last), position, *range(last, position), *range(position + 1, len(body))]
            yield f"{IN_BODY} with get {position} before submit {last}", in_order(body, order)


def in_order(body, order):
    """Returns the body with its actions at these positions, in this order."""
    return [(what, order.index(operand) if what == "get" else operand) for what, operand in (body[at] for at in order)]


def slips_of_recordings(texts):
    """Checks that a recording breaks a rule if one of its lines is removed. (The line at the end of a job is removed only if the job is
    got.)"""
    missed, tried = [], Counter()
    for name in VOIDS:
        lines = texts[name, "none", 0].splitlines(keepends=True)
        for at, line in enumerate(lines if len(lines) <= MOST_LINES else []):
            word = word_of(line)
            if word in ("recording", "pool", "begin", "submit", "start") or word == "end" and is_got(line, lines):
                tried[word] += 1
                try:
                    read("".join(lines[:at] + lines[at + 1:]))
                    missed.append(f"services, {name}: the removal of line {at + 1}, {line!r}, is not found")
                except BadLine:
                    continue
    print(f"deliberate errors in recordings: removed lines, {', '.join(f'{word} {number}' for word, number in tried.items())}, {len(missed)} "
          "not found", flush=True)
    return missed


def word_of(line):
    words = line.split()
    return words[2] if words[0] in ("job", "round") else words[0]


def is_got(line, lines):
    words = line.split()
    return words[0] == "job" and any(re.fullmatch(rf"\S+ \d+ got {words[1]}\n", other) for other in lines)


def certified(tools):
    """Checks that each plan has a certificate, if the program is available."""
    if not tools.program:
        return []
    answers = {name: tools.sizing("certify", plan_of(name))[0] for name in VOIDS}
    wrong = [f"services, {name}: certify ends with {status}" for name, status in answers.items() if status]
    print(f"plans of services: {len(answers)}, {len(wrong)} without a certificate", flush=True)
    return wrong
