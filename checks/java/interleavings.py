"""Two interleavings that Java allows, but that are impossible if a submit is one step. The queue pauses after a failed offer.

The pool has core 1, max 2 and queue 1. W's job starts the first thread, V's job is queued, X's offer fails, and X pauses. Then the jobs
of W and V end, and X asks for a thread. Derived by hand: if there is a fourth client Y, whose job got the last thread meanwhile, X is
refused, although no job is queued and one of the two threads is idle. Without Y, X gets a second thread, although no job is queued.
"""

BY_HAND = {
    "four clients": "Y served, then queued 0 threads 2 at work 1; X refused, then queued 0 threads 2 at work 1",
    "three clients": "Y none, then queued 0 threads 1 at work 0; X served, then queued 0 threads 2 at work 1",
}


def part(tools):
    wrong, found = [], 0
    for kind in ("array", "linked"):
        for name, wanted in BY_HAND.items():
            printed = tools.run_java("Interleavings", kind, str(name == "four clients").lower(), "true")
            if printed != [wanted]:
                wrong.append(f"interleavings, {kind}, {name}: {printed}, expected {wanted}")
            slipped = tools.run_java("Interleavings", kind, str(name == "four clients").lower(), "false")
            found += slipped != [wanted]
    print(f"interleavings: 4, {len(wrong)} wrong; deliberate error 'the failed offer does not wait': found in {found} of 4", flush=True)
    return wrong + ([] if found == 4 else ["interleavings: the deliberate error is not found"])
