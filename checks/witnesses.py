#!/usr/bin/env python3
"""Replays each witness that `sizing refute` finds against random plans, on the machine of small_plans.py, which is independent of
the crates.

The random plans are those for which the second search of found_certs.py finds no certificate. In a third of them, pools may reject
jobs, which is no refusal. In half of them, queues may be unbounded. In two fifths of them, core threads of pools may time out. For each
of them:

- Each event of a witness is possible, and only the last event may be a refused submit. If it is not, the named jobs are unfinished
  and wait only for each other after it.
- If core threads may time out and `refute` says that the jobs wait forever, each pool with one of them in its queue has at least
  core threads. With fewer, a further submit starts a thread.
- If `refute` says that the plan is safe, and the plan has few states, no state of it is bad.
- If `refute` does not decide, it reports at most as many searched states as requested.

For each limit of states, the check also prints the number of plans that are not decided, the average number of events of the
witnesses, and how many plans without a witness are safe on this machine, are not safe, or have too many states.

    python3 checks/witnesses.py [PLANS [SEED [STATES..]]]     # 3,000 plans, seed 1, and 10,000 and then 100,000 states

The program is crates/sizing/out/sizing, or the one that the environment variable SIZING names.

Exit status: 0 if all of this holds, 1 if not, 2 if there is no program.
"""

import random
import re
import subprocess
import sys
from collections import Counter
from dataclasses import dataclass

sys.dont_write_bytecode = True

import small_plans
from asking import SECONDS, built_program, each
from found_certs import NONE, answer, kinds_of, plan_by_chance, text
from read_plans import read_plan
from small_plans import DONE, Machine, explored

SAFE, OPEN = 0, 4
OPEN_NOW = "open"
BELOW_CORE = "stuck below core"
# The maximum number of states of a plan without a witness that are visited.
small_plans.MOST_STATES = 3_000


def main():
    if not (program := built_program()):
        return 2
    words = [int(word) for word in sys.argv[1:]]
    count, seed = (words + [3000, 1][len(words):])[:2]
    plans = uncertified(count, random.Random(seed))
    wrong, still_open = 0, plans
    for states in words[2:] or [10_000, 100_000]:
        print(f"at most {states} states")
        results = results_of(program, still_open, states)
        wrong += results.wrong
        still_open = results.still_open
        print(f"open: {len(still_open)} of {len(plans)}, {results.wrong} wrong", flush=True)
    print(f"{len(plans)} plans without a certificate, {wrong} wrong")
    return 1 if wrong else 0


@dataclass
class Results:
    """The plans that are not decided, and the number of wrong answers."""

    still_open: list
    wrong: int


def results_of(program, plans, states):
    """Runs `refute` on each plan, and prints the counts of the answers by kind."""
    counts, events, found = Counter(), Counter(), Results([], 0)
    for plan, (kind, length, fault) in zip(plans, each(lambda plan: judged(program, plan, states), plans)):
        counts[kind] += 1
        events[kind] += length
        if kind.startswith(OPEN_NOW):
            found.still_open.append(plan)
        if fault:
            found.wrong += 1
            print(f"{plan}%%\n{kind}: {fault}")
    for kind, number in sorted(counts.items()):
        print(f"{kind}: {number}" + (f", {events[kind] / number:.1f} events each" if events[kind] else ""))
    return found


def uncertified(count, chance):
    """Returns the texts of random plans without a certificate, `count` in all."""
    texts = []
    while len(texts) < count:
        plan = plan_by_chance(chance, *kinds_of(len(texts)))
        if answer(plan) == NONE:
            texts.append(text(plan))
    return texts


def judged(program, plan, states):
    """Returns the kind of the answer to a plan, the number of events of the witness, and the fault of the answer or None."""
    status, said = refuted(program, plan, states, "--bundle")
    if status == 0:
        copied, _, rest = said.partition("\n%%\n")
        if copied.rstrip("\n") != plan.rstrip("\n"):
            return "witness", 0, "the plan is another one"
        kind, length, fault = replayed(plan, rest.split("\n") if rest else [])
        return kind, length, fault or (kind == BELOW_CORE and fault_of_ending(program, plan, states)) or None
    status, said = refuted(program, plan, states)
    if status not in (SAFE, OPEN):
        return "no witness", 0, f"status {status}: {said}"
    _, bad, cut = explored(read_plan(plan))
    reported = "reported safe" if status == SAFE else OPEN_NOW
    found = "not safe here" if bad else "too many states here" if cut else "safe here"
    return f"{reported}, {found}", 0, bad if status == SAFE else miscounted(said, states)


def fault_of_ending(program, plan, states):
    """Returns the fault of an answer that jobs wait forever although a submit may start a thread, or None."""
    said = refuted(program, plan, states)[1].partition("\n")[0]
    return f"it says {said!r}, but a submit may start a core thread" if said.startswith("stuck forever") else None


def miscounted(said, states):
    """Returns the fault of the line with the number of searched states, or None if the line is right."""
    reported = re.fullmatch(r"not decided: (?:1 state was|(\d+) states were) searched\n", said)
    if not reported:
        return f"it says {said!r}"
    return None if 1 <= int(reported[1] or 1) <= states else f"with a limit of {states} states it prints {said!r}"


def refuted(program, plan, states, *words):
    """Runs `refute`, and returns its exit status and its answer."""
    command = [program, "refute", "--states", str(states), *words]
    done = subprocess.run(command, input=plan, capture_output=True, text=True, timeout=SECONDS, check=False)
    return done.returncode, done.stdout


def replayed(text_of_plan, lines):
    """Replays a witness. Returns its kind, the number of its events, and its fault or None."""
    plan = read_plan(text_of_plan)
    pools = {pool.name: number for number, pool in enumerate(plan.pools)}
    machine = Machine(plan)
    state, made, outcome, members = machine.start(), 0, "", None
    lines = [line for line in lines if line]
    for number, line in enumerate(lines, 1):
        word, *operands = line.split()
        if outcome.startswith("refused"):
            return "witness", len(lines), f"a submit before line {number} is refused"
        if word == "stuck":
            members = {int(operand) for operand in operands}
            if number < len(lines):
                return "witness", len(lines), "events after the line with the jobs that wait"
            continue
        event = (word, pools[operands[0]] if word in ("take", "retire") else int(operands[0]))
        done = machine.step(state, event, made) if event[0] != "client" or event[1] < len(machine.kinds) else None
        if done is None:
            return "witness", len(lines), f"line {number} is not possible: {line}"
        state, outcome = done
        made += outcome.startswith(("started", "queued", "rejected"))
    if members is None:
        return "refused", len(lines), None if outcome.startswith("refused") else "nothing is refused"
    if not wait_for_each_other(machine, state, members):
        return "stuck", len(lines), "the jobs do not wait only for each other"
    return kind_of([(plan.pools[of], machine.threads(state, of)) for of in queued_in(machine, state, members)]), len(lines), None


def kind_of(pools):
    """Returns the kind of a witness, from the pools in whose queues members wait, each with its number of threads."""
    if any(threads < pool.core for pool, threads in pools):
        return BELOW_CORE
    is_full = all(threads == pool.max or pool.unbounded for pool, threads in pools)
    return "stuck, pools full" if is_full else "stuck below max"


def wait_for_each_other(machine, state, members):
    jobs = dict(state.jobs)
    return bool(members) and all(
        number in jobs and jobs[number].phase != DONE and machine.waits(state, jobs, number, members)
        for number in members
    )


def queued_in(machine, state, members):
    """Returns the pools in whose queues members wait."""
    return {machine.pool_of(job) for number, job in state.jobs if number in members and job.phase == small_plans.QUEUED}


if __name__ == "__main__":
    sys.exit(main())
