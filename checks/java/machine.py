"""A machine that computes the answers of an executor to a list of events, by the three rules of the Javadoc (docs/GUIDE.md).

A submit is one event or, with `in_steps`, up to three: with fewer than core threads a new thread starts the job; otherwise the job is
offered to the queue; and if the offer fails, the pool tries to add a thread. If the pool has all its threads, it refuses the job, or
rejects it if it may: then the job is done at once. An actor can skip a submit, and then also skips its get. A queue of 0 is a
`SynchronousQueue`: an offer succeeds if fewer jobs are queued than threads are idle, and a thread that was given a job does not end.
An offer to an unbounded queue always succeeds. If core threads may time out, each idle thread can end, except the last one while a job
is queued. So an offer may find no thread any more, and then the submit starts one.
"""

from small_plans import counts_text, queue_limit

NOT_POSSIBLE = "not possible"


class Actor:
    def __init__(self, body, repeat):
        self.body, self.repeat, self.position = body, repeat, 0
        self.made = {}  # the latest job of each submit, or None if the submit was skipped
        self.call = None  # the last step of the actor's call of execute, or None outside a call
        self.tried = False  # the actor's submit was refused, and the actor is still at that position
        self.path, self.spots = [], {}  # the actor's actions so far, and the index among them of each submit

    def action(self):
        return self.body[self.position] if self.position < len(self.body) else ("end", None)


class Job(Actor):
    def __init__(self, body, number, kind, pool, stage):
        super().__init__(body, True)
        self.number, self.kind, self.pool, self.stage = number, kind, pool, stage


class Machine:
    def __init__(self, plan, in_steps=False):
        self.plan, self.in_steps, self.refusals, self.rejections = plan, in_steps, 0, 0
        self.clients = [Actor(client.body, client.repeat) for client in plan.clients for _ in range(client.count)]
        self.jobs = []
        self.gave_up = False  # some actor skipped a submit that was refused before
        self.idle = [pool.core if pool.prestart else 0 for pool in plan.pools]
        self.queues = [[] for _ in plan.pools]

    def busy(self, pool):
        return [job for job in self.jobs if job.pool == pool and job.stage == "running"]

    def threads(self, pool):
        return self.idle[pool] + len(self.busy(pool))

    def limit(self, pool, idle):
        """Returns the maximum number of queued jobs if this number of threads is idle."""
        return queue_limit(self.plan.pools[pool].queue, idle)

    # ---- events

    def moves(self):
        """Returns all events that are possible."""
        found = []
        for word, actors in (("client", self.clients), ("job", self.jobs)):
            for number, actor in enumerate(actors):
                if self.can_act(actor):
                    found.append(f"{word} {number}")
                if actor.action()[0] == "submit" and self.is_about(actor) and not actor.call:
                    found.append(f"leave {word} {number}")
        for pool, one in enumerate(self.plan.pools):
            if self.idle[pool] and self.queues[pool]:
                found.append(f"take {one.name}")
            if self.idle[pool] and self.can_spare(pool) and len(self.queues[pool]) <= self.limit(pool, self.idle[pool] - 1):
                found.append(f"retire {one.name}")
        return found

    def can_spare(self, pool):
        """Returns whether the pool has more threads than it keeps."""
        one, threads = self.plan.pools[pool], self.threads(pool)
        return threads > one.core or one.core_timeout and (threads > 1 or not self.queues[pool])

    @staticmethod
    def is_about(actor):
        return not isinstance(actor, Job) or actor.stage == "running"

    def can_act(self, actor):
        what, operand = actor.action()
        if not self.is_about(actor):
            return False
        if what == "get":
            return actor.made[operand] is None or actor.made[operand].stage == "done"
        return what != "end" or actor.repeat

    def answer(self, event):
        if event.startswith("stuck"):
            return "stuck yes" if self.wait_for_each_other({int(word) for word in event.split()[1:]}) else "stuck no"
        if event not in self.moves():
            return NOT_POSSIBLE
        *leave, word, which = event.split()
        if word in ("take", "retire"):
            return self.of_pool(word, [pool.name for pool in self.plan.pools].index(which))
        actor = (self.clients if word == "client" else self.jobs)[int(which)]
        return self.leave_out(actor) if leave else self.act(actor)

    def of_pool(self, word, pool):
        self.idle[pool] -= 1
        if word == "retire":
            return "retired"
        job = self.queues[pool].pop(0)
        job.stage = "running"
        return f"took job {job.number}"

    def leave_out(self, actor):
        self.gave_up = self.gave_up or actor.tried
        actor.tried = False
        actor.made[actor.position] = None
        actor.position += 1
        return "left out"

    def act(self, actor):
        what, operand = actor.action()
        if what == "submit":
            return self.submit(actor, operand)
        if what == "end":
            return self.end(actor)
        actor.position += 1
        if what == "work":
            actor.path.append(("work", operand))
            return f"worked {operand}"
        if actor.made[operand] is None:
            return "passed"
        actor.path.append(("get", actor.spots[operand]))
        return f"got job {actor.made[operand].number}"

    def end(self, actor):
        if isinstance(actor, Job):
            actor.stage = "done"
            self.idle[actor.pool] += 1
            return f"finished job {actor.number}"
        actor.position = 0
        return "looped"

    # ---- a submit

    def submit(self, actor, kind):
        pool = self.plan.classes[kind].pool
        sizes = self.plan.pools[pool]
        if actor.call is None:
            if self.threads(pool) < sizes.core:
                return self.makes(actor, kind, pool, "running")
            actor.call = "found core threads"
            if self.in_steps:
                return actor.call
        if actor.call == "found core threads":
            if sizes.unbounded or len(self.queues[pool]) < self.limit(pool, self.idle[pool]):
                self.look(pool)
                return self.makes(actor, kind, pool, "queued")
            actor.call = "found the queue full"
            if self.in_steps:
                return actor.call
        if self.threads(pool) < sizes.max:
            return self.makes(actor, kind, pool, "running")
        if sizes.may_reject:
            self.rejections += 1
            return self.makes(actor, kind, pool, "done")
        actor.call, actor.tried = None, True
        self.refusals += 1
        return f"refused by {sizes.name}"

    def look(self, pool):
        """Starts a thread if there is none, as a submit does after its offer."""
        self.idle[pool] += not self.threads(pool)

    def makes(self, actor, kind, pool, stage):
        job = Job(self.plan.classes[kind].body, len(self.jobs), kind, pool, stage)
        self.jobs.append(job)
        if stage == "queued":
            self.queues[pool].append(job)
        actor.call, actor.tried = None, False
        actor.made[actor.position] = job
        actor.spots[actor.position] = len(actor.path)
        actor.path.append(("submit", job))
        actor.position += 1
        outcome = {"queued": "queued", "running": "started", "done": f"rejected by {self.plan.pools[pool].name} as"}[stage]
        return f"{outcome} job {job.number}"

    # ---- jobs that wait only for each other

    def wait_for_each_other(self, members):
        return all(number < len(self.jobs) and self.waits(self.jobs[number], members) for number in members)

    def waits(self, job, members):
        if job.stage == "queued":
            return not self.idle[job.pool] and all(other.number in members for other in self.busy(job.pool))
        what, operand = job.action()
        return job.stage == "running" and what == "get" and job.made[operand] is not None and job.made[operand].number in members

    def most_waiting(self):
        """Returns the greatest set of jobs that wait only for each other."""
        members = {job.number for job in self.jobs if job.stage in ("queued", "running")}
        while not self.wait_for_each_other(members):
            members = {number for number in members if self.waits(self.jobs[number], members)}
        return members

    def counts(self):
        """Returns the last line of a replay, and a line with the counts of each pool."""
        unfinished = sum(job.stage != "done" for job in self.jobs)
        return [counts_text(self.plan, self.refusals, self.rejections, unfinished)] + [
            f"{one.name}: threads {self.threads(pool)}, idle {self.idle[pool]}, queued {len(self.queues[pool])}"
            for pool, one in enumerate(self.plan.pools)
        ]
