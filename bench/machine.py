"""A small model of the machine: the effect of each event on the pools, the clients and the jobs of a plan.

The model requires a valid plan, as the inputs of this folder have it.
"""

from collections import Counter, deque
from dataclasses import dataclass, field


@dataclass
class Pool:
    """A pool of a plan, with its threads and its queue."""

    name: str
    core: int
    max: int
    queue: int
    threads: int = 0
    idle: int = 0
    waiting: deque = field(default_factory=deque)

    def offer(self, number):
        """Offers the job with this number to the pool, and returns whether it is started, queued or refused."""
        if self.threads < self.core:
            self.threads += 1
            return "started"
        if len(self.waiting) < self.queue:
            self.waiting.append(number)
            return "queued"
        if self.threads < self.max:
            self.threads += 1
            return "started"
        return "refused"


@dataclass
class Class:
    """A class of jobs: its pool, and its actions in order."""

    name: str
    pool: str
    body: list


@dataclass
class Client:
    """A client kind: the number of its clients, and the body that each of them runs."""

    name: str
    count: int
    repeat: bool
    body: list


@dataclass
class Plan:
    pools: list
    classes: list
    clients: list

    def text(self):
        """Returns the plan as TOML."""
        lines = []
        for pool in self.pools:
            lines += ["[[pool]]", f'name = "{pool.name}"']
            lines += [f"core = {pool.core}", f"max = {pool.max}", f"queue = {pool.queue}"]
        for of_class in self.classes:
            lines += ["[[class]]", f'name = "{of_class.name}"', f'pool = "{of_class.pool}"', body_line(of_class.body)]
        for client in self.clients:
            lines += ["[[client]]", f'name = "{client.name}"', f"count = {client.count}"]
            lines += [f"repeat = {str(client.repeat).lower()}", body_line(client.body)]
        return "".join(f"{line}\n" for line in lines)


def body_line(body):
    return "body = [" + ", ".join(f'"{action}"' for action in body) + "]"


class Actor:
    """A client or a job: its position in its body, and the latest job that it submitted for each slot."""

    def __init__(self, body):
        self.body = body
        self.position = 0
        self.made = {}

    def at_end(self):
        return self.position == len(self.body)


class Machine:
    """The state of the machine of a plan, which has no threads and no jobs at the start."""

    def __init__(self, plan):
        self.pools = {pool.name: pool for pool in plan.pools}
        self.classes = {of_class.name: of_class for of_class in plan.classes}
        self.clients = []
        for kind in plan.clients:
            for _ in range(kind.count):
                client = Actor(kind.body)
                client.repeat = kind.repeat
                self.clients.append(client)
        self.jobs = []
        self.refusals = 0
        self.unfinished = 0

    def happen(self, line):
        """Performs the event of this line, and returns its outcome, or None if it is not possible. A line `stuck` changes nothing."""
        word, which = line.split(" ", 1)
        if word == "stuck":
            return f"stuck {'yes' if self.stuck({int(number) for number in which.split()}) else 'no'}"
        if word == "take":
            return self.take(self.pools[which])
        if word == "retire":
            return self.retire(self.pools[which])
        number = int(which)
        if word == "client":
            return self.client(number)
        return self.job(number)

    def stuck(self, members):
        """Returns whether these jobs exist, and each of them is unfinished and waits only for others of them."""
        if not members or max(members) >= len(self.jobs):
            return False
        members = {number: self.jobs[number] for number in members}
        at_work = Counter(job.pool.name for job in members.values() if job.phase == "at work")
        return all(waits(job, members, at_work) for job in members.values())

    def summary(self):
        """Returns the last line of a replay."""
        return f"refusals {self.refusals}, unfinished {self.unfinished}"

    def client(self, number):
        if number >= len(self.clients):
            return None
        client = self.clients[number]
        if not client.at_end():
            return self.act(client)
        if not client.repeat:
            return None
        client.position = 0
        return "looped"

    def job(self, number):
        if number >= len(self.jobs) or self.jobs[number].phase != "at work":
            return None
        job = self.jobs[number]
        if not job.at_end():
            return self.act(job)
        job.phase = "done"
        job.pool.idle += 1
        self.unfinished -= 1
        return f"finished job {number}"

    def act(self, actor):
        """Performs the actor's next action: `work N`, `submit CLASS`, `submit CLASS as SLOT` or `get SLOT`."""
        word, what, *slot = actor.body[actor.position].split(" ")
        if word == "work":
            outcome = f"worked {what}"
        elif word == "submit":
            outcome = self.submit(actor, what, slot[-1] if slot else None)
        else:
            outcome = self.get(actor, what)
        if outcome is not None and not outcome.startswith("refused"):
            actor.position += 1
        return outcome

    def submit(self, actor, class_name, slot):
        of_class = self.classes[class_name]
        pool = self.pools[of_class.pool]
        number = len(self.jobs)
        came = pool.offer(number)
        if came == "refused":
            self.refusals += 1
            return f"refused by {pool.name}"
        job = Actor(of_class.body)
        job.pool = pool
        job.phase = "at work" if came == "started" else "queued"
        self.jobs.append(job)
        self.unfinished += 1
        actor.made[slot] = number
        return f"{came} job {number}"

    def get(self, actor, slot):
        number = actor.made[slot]
        if self.jobs[number].phase != "done":
            return None
        self.jobs[number].phase = "claimed"
        return f"got job {number}"

    def take(self, pool):
        if pool.idle == 0 or not pool.waiting:
            return None
        pool.idle -= 1
        number = pool.waiting.popleft()
        self.jobs[number].phase = "at work"
        return f"took job {number}"

    def retire(self, pool):
        if pool.idle == 0 or pool.threads <= pool.core:
            return None
        pool.idle -= 1
        pool.threads -= 1
        return "retired"


def waits(job, members, at_work):
    """Returns whether the job waits only for these members. `at_work` has the number of members that run in each pool."""
    if job.phase == "queued":
        return job.pool.idle == 0 and job.pool.threads == at_work[job.pool.name]
    if job.phase != "at work" or job.at_end():
        return False
    word, slot = job.body[job.position].split(" ")[:2]
    return word == "get" and job.made[slot] in members
