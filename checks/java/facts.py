"""Facts about Java's executors on which docs/COVERAGE.md and the pages rely, each run on unmodified executors.

Derived by hand from the Javadoc and from the rules of docs/GUIDE.md:

- `FutureTask.done()` runs in the thread that completes or cancels the task, after the result is there. An exception from it ends a
  thread of the pool, which the pool replaces, or is thrown by `cancel`. A full completion queue throws there.
- A job that is put into the queue itself starts no thread. Two pools with one queue run each other's jobs.
- Core 2, max 2 and queue 1 serve three jobs without prestarted threads. If the threads are prestarted after the first job, the second
  job is queued and the third one refused, as long as no thread takes the second.
- If a task of `execute` throws, the pool has one thread fewer until its thread is replaced. A job that is submitted meanwhile starts a
  thread and overtakes a queued job. With max above core the pool then has a thread above core, although its queue was never full.
- The keep-alive time has no effect if core is max. With max above core it ends the idle thread above core.
- A permit whose submit is refused comes back only if the submitter releases it.

About full pools that are meant to reject jobs. Each pool has one thread and one place, unless stated otherwise:

- `CallerRunsPolicy` runs a job on the thread of its submitter. If this is the only core thread of p, and the job gets a job of p, then
  both pools stop. They do not stop if p has a second core thread, or if the handler throws and the exception is caught. If the job
  submits to p, then more threads than those of q do that, and p refuses a job.
- A pool p with core 2, max 2 and queue 2 serves all rounds of that client: the queue has a place for the client's job, or for the job
  that it submits and gets, and a place for the job of q's thread. With one place fewer p refuses a job.
- A discarded job is never done. `DiscardOldestPolicy` drops the head of the queue, and queues the new job.
- If the second job of an `invokeAll` is rejected, it cancels the first one and throws. The first one stays in the queue, and its body
  never runs.
- `supplyAsync` throws the exception of the handler. A later stage whose job is rejected is done at once, with that exception, and the
  stages after it submit nothing.
- After `shutdown`, `CallerRunsPolicy` drops the job.
- A caller that holds a semaphore waits for itself if it runs a job that acquires it. With a reentrant lock it does not.

About pools over a `SynchronousQueue`, which is the queue of 0 of a plan:

- Below core a submit starts a thread, even if a thread is idle. From core on it hands the job to an idle thread that has none yet. If
  there is no such thread, a thread starts below max, and otherwise the submit is rejected.
- A get may return before the thread is back at the queue. So the next submit may be rejected although no job is unfinished. It is
  never rejected if the thread waits in the queue.
- A thread above core that is idle for the keep-alive time ends. If a job is handed to it at that moment, the job still runs.
- `DiscardOldestPolicy` finds no job in the queue to discard, and calls `execute` again, until a thread is idle or the stack overflows.

About pools over a `LinkedBlockingQueue` without a capacity, which is the unbounded queue of a plan, as that of `newFixedThreadPool`:

- An offer to the queue never fails. So no submit starts a thread above core, whatever the maximum is, and the handler is called only
  after `shutdown`. With core 0 one thread starts.
- If each of the n core threads runs a job that submits a job to the pool and gets it, all of them wait forever. A pool with n - 1
  such jobs at a time serves all rounds. Over a bounded queue that is full, a thread above core helps.

About pools whose core threads may time out. Most have the sizes of Spring Boot's executor:

- A submit compares the number of threads with core, and then offers the job. If the time of all idle threads ends in between, they end
  although a job is queued, as long as another thread is left. If that one runs a job that gets the queued one, it waits forever, or until
  a further submit starts a thread, since there are fewer than core. It does not wait if the inner job has a pool of its own.
- The last thread does not end while a job is queued. If it ends before the offer, the submit that made the offer starts a thread.
- A submit that made an offer and a thread that ends may each find no thread and a queued job, and then each starts one. So over any
  queue a pool may have a thread above core. Over a queue of 1, core 1 and max 2 then refuse the third job.
"""

EXECUTORS = {
    "done throws": "got 7, ended by [Planned], threads 1",
    "done throws in a cancel": "cancel threw Planned",
    "done submits": "jobs 3, submitted by a thread of the pool true, by the thread that cancels true",
    "full completion queue": "ended by [IllegalStateException], taken 1, then null",
    "job put into the queue": "ran false, threads 0, queued 1; after a submit ran true",
    "shared queue": "threads at work 1 and 1, a submit to the other refused",
    "prestarted late": "served served refused, threads 2, queued 1",
    "not prestarted": "served served served, threads 2, queued 1",
    "execute throws, max 2": "ended by [Planned], threads 2, started [later]",
    "execute throws, max 3": "ended by [Planned], threads 3, started [later, queued]",
    "keep-alive, core 1, max 1": "threads 1, idle 1",
    "keep-alive, core 1, max 2": "threads 2, idle 1",
    "permit after shutdown, with catch": "permits 1",
    "permit after shutdown, without catch": "permits 0",
}
REJECTIONS = {
    "caller runs a job with a get, core 1": "third done false, p 1 at work, 2 queued, q 1 at work, 1 queued",
    "caller runs a job with a get, core 2": "third done true, p 0 at work, 0 queued, q 0 at work, 0 queued",
    "abort a job with a get, core 1": "third done true, p 0 at work, 0 queued, q 0 at work, 0 queued",
    "caller runs a job that submits": "rejected by q 2, refused by p 1",
    "abort a job that submits": "rejected by q 2, refused by p 0",
    "caller runs, 2000 rounds, queue 2": "all 2000 served, some by the caller true",
    "caller runs, 2000 rounds, queue 1": "refused",
    "discard and a get": "queued done true, last done false",
    "discard oldest and a get": "queued done false, last done true",
    "caller runs and a get": "queued done true, last done true",
    "invokeAll, abort": "threw RejectedExecutionException, queued 1, ran 0",
    "invokeAll, caller runs": "returned, queued 0, ran 2",
    "supplyAsync, abort": "threw RejectedExecutionException",
    "thenApplyAsync, abort": "join threw RejectedExecutionException, later stages 0, cpu 1 at work, 1 queued",
    "caller runs after shutdown": "done false",
    "caller runs before shutdown": "done true, by the caller true",
    "caller runs under a semaphore": "the caller waits true",
    "caller runs under a reentrant lock": "the caller waits false",
}
HAND_OVERS = {
    "one thread, at work": "started, rejected, threads 1",
    "one thread, idle at the queue": "started, handed over, threads 1",
    "one idle thread, core 1, max 2": "handed over, started",
    "one idle thread, core 2, max 2": "started, handed over",
    "two idle threads, max 2": "handed over, handed over, rejected",
    "two idle threads, max 3": "handed over, handed over, started",
    "submits at once after a get": "some accepted true, some rejected true, threads 1",
    "submits when the thread is back": "some accepted true, some rejected false, threads 1",
    "keep-alive, core 1, max 4": "accepted jobs that never ran 0, some accepted true, threads ended true",
    "keep-alive, core 4, max 4": "accepted jobs that never ran 0, some accepted true, threads ended false",
    "discard": "returned, done false, by the caller false, ran false",
    "discard oldest": "threw StackOverflowError, ran false",
    "caller runs": "returned, done true, by the caller true, ran true",
}
UNBOUNDED_QUEUES = {
    "one thread, 1 outer job": "outer done 0, threads 1, at work 1, queued 1",
    "three threads, 2 outer jobs": "outer done 2, threads 3, at work 0, queued 0",
    "three threads, 3 outer jobs": "outer done 0, threads 3, at work 3, queued 3",
    "core 3, max 8, 3 outer jobs": "outer done 0, threads 3, at work 3, queued 3",
    "core 3, max 8, queue 2, 3 outer jobs": "outer done 3, threads 4, at work 0, queued 0",
    "three threads, 2 clients": "all served true, largest 3",
    "three threads, 3 clients": "all served false, largest 3",
    "core 2, max 8": "accepted 10000, threads 2, at work 2, queued 9998",
    "core 2, max 8, queue 100": "accepted 108, threads 8, at work 8, queued 100",
    "core 0, max 8": "accepted 10000, threads 1, at work 1, queued 9999",
    "core 2, max 8, submitters": "some rejected false, accepted jobs that never ran 0, largest 2",
    "core 2, max 8, queue 100, submitters": "some rejected true, accepted jobs that never ran 0, largest 8",
    "caller runs over a queue without a capacity": "by the caller 0, queued 10000",
    "caller runs over a queue of 100": "by the caller 9900, queued 100",
    "a submit after shutdown": "accepted before true, after false",
}
WAITS = "outer done false, threads 1, at work 1, queued 1; after a further submit done true"
CORE_TIMEOUTS = {
    "core 8, 2 jobs, threads end before the offer": WAITS,
    "core 8, 2 jobs, threads end after the offer": WAITS,
    "core 8, 2 jobs, no core timeout": "outer done true",
    "core 8, 2 jobs, queue 100": WAITS,
    "core 8, 2 jobs, queue 100, no core timeout": "outer done true",
    "core 8, 2 jobs in two pools, threads end before the offer": "outer done true",
    "core 8, 2 jobs in two pools, threads end after the offer": "outer done true",
    "core 1, the thread ends before the offer": "done true, by another thread true",
    "core 1, the time of the thread ends before the offer": "done true, by another thread false",
    "core 1, max 2, queue without a capacity": "threads 2, queued 1",
    "core 1, max 1, queue without a capacity": "threads 1, queued 1",
    "core 1, max 2, queue 1, 3 jobs": "threads 2, queued 1, a further job refused",
    "core 1, max 2, queue 1, 3 jobs, no core timeout": "served served served",
}
# The facts, by the program that prints them.
BY_HAND = {"Facts": EXECUTORS, "Rejections": REJECTIONS, "HandOvers": HAND_OVERS, "UnboundedQueues": UNBOUNDED_QUEUES,
           "CoreTimeouts": CORE_TIMEOUTS}
# Pairs that differ only in the cause of a fact, so their outcomes must differ.
PAIRS = (("prestarted late", "not prestarted"), ("execute throws, max 2", "execute throws, max 3"),
         ("keep-alive, core 1, max 1", "keep-alive, core 1, max 2"),
         ("permit after shutdown, with catch", "permit after shutdown, without catch"),
         ("caller runs a job with a get, core 1", "caller runs a job with a get, core 2"),
         ("caller runs a job with a get, core 1", "abort a job with a get, core 1"),
         ("caller runs a job that submits", "abort a job that submits"),
         ("caller runs, 2000 rounds, queue 2", "caller runs, 2000 rounds, queue 1"),
         ("discard and a get", "caller runs and a get"), ("discard oldest and a get", "caller runs and a get"),
         ("invokeAll, abort", "invokeAll, caller runs"),
         ("caller runs after shutdown", "caller runs before shutdown"),
         ("caller runs under a semaphore", "caller runs under a reentrant lock"),
         ("one thread, at work", "one thread, idle at the queue"),
         ("one idle thread, core 1, max 2", "one idle thread, core 2, max 2"),
         ("two idle threads, max 2", "two idle threads, max 3"),
         ("submits at once after a get", "submits when the thread is back"),
         ("keep-alive, core 1, max 4", "keep-alive, core 4, max 4"),
         ("discard", "discard oldest"), ("discard", "caller runs"),
         ("three threads, 2 outer jobs", "three threads, 3 outer jobs"),
         ("core 3, max 8, 3 outer jobs", "core 3, max 8, queue 2, 3 outer jobs"),
         ("three threads, 2 clients", "three threads, 3 clients"),
         ("core 2, max 8", "core 2, max 8, queue 100"), ("core 2, max 8", "core 0, max 8"),
         ("core 2, max 8, submitters", "core 2, max 8, queue 100, submitters"),
         ("caller runs over a queue without a capacity", "caller runs over a queue of 100"),
         ("core 8, 2 jobs, threads end before the offer", "core 8, 2 jobs, no core timeout"),
         ("core 8, 2 jobs, threads end before the offer", "core 8, 2 jobs in two pools, threads end before the offer"),
         ("core 8, 2 jobs, threads end after the offer", "core 8, 2 jobs in two pools, threads end after the offer"),
         ("core 8, 2 jobs, queue 100", "core 8, 2 jobs, queue 100, no core timeout"),
         ("core 1, the thread ends before the offer", "core 1, the time of the thread ends before the offer"),
         ("core 1, max 2, queue without a capacity", "core 1, max 1, queue without a capacity"),
         ("core 1, max 2, queue 1, 3 jobs", "core 1, max 2, queue 1, 3 jobs, no core timeout"))


def part(tools):
    wanted, printed = {}, {}
    for program, facts in BY_HAND.items():
        wanted |= facts
        printed |= zip(facts, tools.run_java(program, *facts), strict=True)
    wrong = [f"facts, {name}: {printed[name]}, expected {by_hand}" for name, by_hand in wanted.items() if printed[name] != by_hand]
    differ = sum(printed[one] != printed[other] for one, other in PAIRS)
    print(f"facts: {len(wanted)}, {len(wrong)} wrong; without the cause another outcome: {differ} of {len(PAIRS)}", flush=True)
    return wrong + ([] if differ == len(PAIRS) else ["facts: a fact does not depend on its cause"])
