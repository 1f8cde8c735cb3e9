"""The checks that `rt ci` runs in parallel, and the number of jobs of each.

`rt ci` starts a check if its estimate of the memory fits. Its estimates are 1.3 to 5.5 times what a check of these crates takes, so
that processors stay idle; `realistic_need` replaces them. It also lets mutants fill each idle processor, so that a crate on the
longest chain gets one job; `in_lanes` gives mutants one processor while a proof waits."""
from concurrent.futures import FIRST_COMPLETED, ThreadPoolExecutor, wait

# The largest check takes a little more than this, and nearly all others 1 to 3 GiB (docs/GATE.md).
CHECK_GIB = 5
# The memory of most checks. A check with more jobs takes this part of it more for each.
USUAL_GIB = 2.5
MORE = 0.5
# The most jobs of a check: more save little time, and each costs the reading of the libraries.
MOST_JOBS = 4
# A crate with fewer lines gets one job while mutants wait: most of its time goes into the reading of the libraries, or into a
# compiler, so that a mutant makes more of a processor.
MANY_LINES = 800
# The jobs of the check with the longest chain of work after it, even if other checks take all processors: the number of jobs of
# a check is fixed when it starts, and the end of a run depends on this chain. Two jobs do the work of 1.8. On two processors it is
# one job, since a second check that runs beside it saves more.
JOBS_OF_CHAIN = 2


def side_by_side(rt, gib):
    """Returns how many runs fit at once that take this much memory each, at most one for each processor."""
    return max(1, min(rt.processors(), int(rt.free() / 2**30 / gib)))


def realistic_need(rt):
    """Makes rt expect the usual memory of a check, and use no more processors than largest checks fit into the memory."""
    rt.need = lambda crate: int(USUAL_GIB * 2**30)
    rt.in_lanes = lambda tasks: in_lanes(rt, tasks)
    compile_at_once(rt)


def compile_at_once(rt):
    """Makes rt run the two compilers of a program in parallel: when a run reaches them, nothing else is left to prove."""
    compile_by, second = rt.Crate.compile_by, {}

    def compiled(crate, backend, words, to):
        if (crate.name, backend) in second:
            return second.pop((crate.name, backend)).result()
        with ThreadPoolExecutor(1) as other:
            second[crate.name, "rattle"] = other.submit(compile_by, crate, "rattle", words, to)
            return compile_by(crate, backend, words, to)

    rt.Crate.compile_by = compiled


def compile_with_llvm(rt):
    """Makes rt build programs with LLVM alone. Rattle's own compiler takes three times as long."""
    compile_by = rt.Crate.compile_by
    rt.Crate.compile_by = lambda crate, backend, words, to: compile_by(crate, backend, words, to) if backend == "llvm" else 0


def in_lanes(rt, tasks):
    """Runs tasks in parallel and returns what each gave. A task is the keys of those that it waits for, its work, its memory, and a
    call that takes what was given and a number of jobs. Those with the longest chain of work after them start first; mutants come last,
    crate by crate, so that an interrupted run has finished some crates."""
    lanes, memory = side_by_side(rt, CHECK_GIB), 0.85 * rt.free()
    after = chains(tasks)
    turns = {crate: turn for turn, crate in enumerate(dict.fromkeys(key[0] for key in tasks))}
    waiting = sorted(tasks, key=lambda key: (turns[key[0]] + 1 if is_of_mutants(key) else 0, -after[key]))
    running, given = {}, {}
    with rt.ending(), ThreadPoolExecutor(lanes) as pool:
        while waiting or running:
            for key, jobs in startable(tasks, waiting, running, given, lanes, memory):
                waiting.remove(key)
                _, _, need, call = tasks[key]
                running[pool.submit(call, given, jobs)] = key, need * (1 + MORE * (jobs - 1)), jobs
            for ended in wait(running, return_when=FIRST_COMPLETED).done:
                given[running.pop(ended)[0]] = ended.result()
    return given


def startable(tasks, waiting, running, given, lanes, memory):
    """Yields tasks to start, each with its number of jobs; the caller moves each to `running` before it takes the next."""
    ready = [key for key in waiting if all(below in given for below in tasks[key][0])]
    proofs = [key for key in ready if not is_of_mutants(key)]
    for key in ready:
        idle = lanes - sum(jobs for _, _, jobs in running.values())
        room = memory - sum(need for _, need, _ in running.values())
        need = tasks[key][2]
        if idle <= 0 or (running and need > room):
            return
        if is_of_mutants(key):
            proof_waits = any(not is_of_mutants(it) for it in waiting)
            if proof_waits and any(is_of_mutants(it) for it, _, _ in running.values()):
                return
            yield key, 1
        else:
            others = len(proofs) - proofs.index(key)
            fitting = 1 + int((room / need - 1) / MORE)
            # `waiting` is sorted by the chains
            wanted = max(idle // others, JOBS_OF_CHAIN if key == waiting[0] and lanes > JOBS_OF_CHAIN else 1)
            of_small = 1 if any(map(is_of_mutants, waiting)) else JOBS_OF_CHAIN
            useful = MOST_JOBS if tasks[key][1] >= MANY_LINES else of_small
            yield key, max(1, min(useful, lanes, wanted, fitting))


def chains(tasks):
    """Returns by task the work of the longest chain of tasks that begins with it."""
    after = {key: 0 for key in tasks}
    # a task comes after those that it waits for
    for key in reversed([*tasks]):
        after[key] += tasks[key][1]
        for below in tasks[key][0]:
            after[below] = max(after[below], after[key])
    return after


def is_of_mutants(key):
    """Returns whether a task tries mutants, prepares a crate for that, or follows such tasks."""
    return key[1] in ("seed", "batch", "edits", "sound", "again", "end")
