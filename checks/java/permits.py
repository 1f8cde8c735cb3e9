"""Permits that bound the number of live jobs of a pool, and the ways in which the permit of a job is released.

docs/PERMITS.md says which ways are right. Derived by hand, for one thread, a queue of two and two permits: job A runs, job B is queued,
and both are cancelled, or a `get` times out. If a permit is released when a thread of the pool has finished with its job, the
submitters of C and D wait for a permit, and in the end both permits are released. If the body releases the permit, B's permit is lost,
since the body of a cancelled queued job does not run. A cancelled stage does nothing, so both permits are lost. If a permit is released
when the submitter stops waiting, A still runs and B is still in the queue. Then C takes the second place of the queue, and D is refused.

If the queue has as many places as there are permits, no submit is ever refused, whatever is cancelled: each queued job and each
submitter that offers a job has a permit. With one place fewer, all three jobs can be queued while both threads are idle.
"""

WAITS = "A served, B served; C waits, D waits; {} of 2 permits come back"
REFUSED = "A served, B served; C served, D refused; 2 of 2 permits come back"
RIGHT = ("JOB", "HOOK", "COMPLETION_SERVICE", "COPIED_STAGE")
BY_HAND = {
    **{way: WAITS.format(2) for way in RIGHT},
    "BODY": WAITS.format(1),
    "SUPPLIER": WAITS.format(1),
    "LAST_STAGE": WAITS.format(0),
    "DONE": REFUSED,
    "STAGE": REFUSED,
    "TIMED_GET": REFUSED,
}
PERMITS = 3
ROUNDS = 1000
# The maximum number of rounds if only some rounds refuse a job.
MOST_ROUNDS = 50_000
KINDS = ("array", "linked")
SLIPS = ("DONE", "STAGE")


def part(tools):
    return [*cancelled(tools), *loops(tools)]


def cancelled(tools):
    printed = dict(zip(BY_HAND, tools.run_java("Cancelled", *BY_HAND), strict=True))
    wrong = [f"permits, {way}: {printed[way]}, expected {wanted}" for way, wanted in BY_HAND.items() if printed[way] != wanted]
    print(f"permits: {len(BY_HAND)} ways in which they are released, {len(wrong)} wrong", flush=True)
    return wrong


def loops(tools):
    """Runs the right ways with a place for each permit and with one place fewer, and the wrong ways with a place for each permit."""
    wrong, jobs, less, slips = [], 0, [], []
    for way in RIGHT:
        for kind in KINDS:
            printed = looped(tools, way, kind, PERMITS, ROUNDS, False)
            jobs += printed["jobs"]
            if printed["refused"] or printed["jobs"] != ROUNDS or printed["back"] != PERMITS:
                wrong.append(f"permits, {way}, {kind}: {printed}")
        printed = looped(tools, way, KINDS[0], PERMITS - 1, MOST_ROUNDS, True)
        less.append(printed["jobs"])
        if not printed["refused"]:
            wrong.append(f"permits, {way}, one place fewer: {printed}")
    for way in SLIPS:
        slips.append(looped(tools, way, KINDS[1], PERMITS, MOST_ROUNDS, True)["refused"] > 0)
    print(f"permits: {len(RIGHT)} ways, {jobs} jobs, {len(wrong)} wrong; with one place fewer refused after "
          f"{', '.join(map(str, less))} jobs; wrong ways {', '.join(SLIPS)}: found {sum(slips)} of {len(SLIPS)}", flush=True)
    return wrong + ([] if all(slips) else ["permits: a wrong way is not found"])


def looped(tools, way, kind, places, rounds, until_refused):
    printed = tools.run_java("PermitLoops", way, kind, places, rounds, str(until_refused).lower())[0]
    return {what: int(number) for what, number in (words.rsplit(" ", 1) for words in printed.split(", "))}
