"""The inputs of the benchmark of `sizing replay`. The model in machine.py performs each event when it is added, so each is possible."""

from machine import Class, Client, Machine, Plan, Pool

SEPARATOR = "%%\n"
# The maximum number of clients of a wave in `nested_jobs`, and the number of threads. Each client of a wave takes one thread, and the
# other threads are free for inner jobs.
WAVE = 4000
THREADS = 5000
# The number of bytes of event lines for each pair of jobs of which one waits for the other.
ROOM_FOR_WAITING = 512
# The maximum number of client kinds in a plan.
KINDS = 256


class Script:
    """The input of a replay and its expected answer, built event by event."""

    def __init__(self, name, plan, room):
        self.name = name
        self.plan = plan.text()
        self.machine = Machine(plan)
        self.room = room
        self.events = []
        self.answers = []
        self.most_unfinished = 0

    def do(self, event):
        """Performs an event on the model, and adds its line and its answer."""
        outcome = self.machine.happen(event)
        if outcome is None or outcome.startswith("refused"):
            raise AssertionError(f"{event} at {len(self.events) + 1}: {outcome}")
        self.events.append(event)
        self.answers.append(f"{len(self.events)}: {outcome}")
        self.room -= len(event) + 1
        if self.room < 0:
            raise AssertionError("the event lines are too long")
        self.most_unfinished = max(self.most_unfinished, self.machine.unfinished)

    def input(self):
        """Returns the input of the program."""
        return (self.plan + SEPARATOR + "".join(f"{event}\n" for event in self.events)).encode()

    def answer(self):
        """Returns the output that the program must print."""
        return "".join(f"{line}\n" for line in [*self.answers, self.machine.summary()]).encode()

    def status(self):
        """Returns the expected exit status: nothing is refused, but jobs may be stuck."""
        return int(any(answer.endswith(" stuck yes") for answer in self.answers))


def one_looping_client(room):
    """Returns as many rounds as there is room for, of one client that submits a job to a pool of one thread and waits for the job."""
    plan = Plan(
        pools=[Pool("p", 1, 1, 1)],
        classes=[Class("a", "p", ["work 1"])],
        clients=[Client("c", 1, True, ["submit a as x", "get x"])],
    )
    script = Script("one looping client", plan, room)
    job = 0
    while script.room >= len(f"client 0\ntake p\njob {job}\njob {job}\nclient 0\nclient 0\n"):
        script.do("client 0")
        if job > 0:
            script.do("take p")
        script.do(f"job {job}")
        script.do(f"job {job}")
        script.do("client 0")
        script.do("client 0")
        job += 1
    return script


def nested_jobs(room):
    """Returns waves of clients, each of which submits an outer job that submits an inner job to the same pool and waits for it.

    All outer jobs of a wave run before the first inner job is done.
    """
    plan = Plan(
        pools=[Pool("p", THREADS, THREADS, 1000000)],
        classes=[Class("outer", "p", ["submit inner as x", "get x"]), Class("inner", "p", ["work 1"])],
        clients=[Client("c", WAVE, True, ["submit outer as x", "get x"])],
    )
    script = Script("nested jobs", plan, room)
    while True:
        jobs = len(script.machine.jobs) + 2 * WAVE
        for_one = 3 * len(f"client {WAVE}\n") + 5 * len(f"job {jobs}\n") + 2 * len("take p\n")
        clients = range(min(WAVE, script.room // for_one))
        if not clients:
            return script
        wave(script, clients)


def wave(script, clients):
    for client in clients:
        script.do(f"client {client}")
    outer = [script.machine.clients[client].made["x"] for client in clients]
    take_queued(script, outer)
    for job in outer:
        script.do(f"job {job}")
    for job in [script.machine.jobs[job].made["x"] for job in outer]:
        take_queued(script, [job])
        script.do(f"job {job}")
        script.do(f"job {job}")
    for job in outer:
        script.do(f"job {job}")
        script.do(f"job {job}")
    for client in clients:
        script.do(f"client {client}")
        script.do(f"client {client}")


def take_queued(script, jobs):
    """Adds an event `take` for each of these jobs that is queued."""
    for job in jobs:
        if script.machine.jobs[job].phase == "queued":
            script.do("take p")


def stuck_lines(room):
    """Returns three replays with jobs each of which waits for a queued job that it submitted.

    The last line of the first replay is a line `stuck` with the numbers of all jobs in descending order, followed by zeros as long as
    there is room. That of the second has each number once, in ascending order. The third replay has no such line.
    """
    falling, rising, silent = [waiting_jobs(name, room) for name in ("one stuck line", "rising", "silent")]
    jobs = range(len(falling.machine.jobs))
    asked = stuck_line(reversed(jobs))
    falling.do(asked + " 0" * ((falling.room - len(asked) - 1) // 2))
    rising.do(stuck_line(jobs))
    return falling, rising, silent


def stuck_line(jobs):
    return " ".join(["stuck", *map(str, jobs)])


def waiting_jobs(name, room):
    """Returns a replay in which jobs occupy all threads of a pool, and each of them waits for a job in the pool's queue."""
    count = max(1, room // ROOM_FOR_WAITING)
    plan = Plan(
        pools=[Pool("p", count, count, count)],
        classes=[Class("outer", "p", ["submit inner as x", "get x"]), Class("inner", "p", ["work 1"])],
        clients=[Client("c", count, True, ["submit outer as x", "get x"])],
    )
    script = Script(name, plan, room)
    for client in range(count):
        script.do(f"client {client}")
    for job in range(count):
        script.do(f"job {job}")
    return script


def one_event(count):
    """Returns the input and the answer of a replay of one event, on a plan with `count` clients of each client kind.

    The model does not compute the answer, since it would create an object for each client.
    """
    plan = Plan(
        pools=[Pool("p", 1, 1, 1)],
        classes=[Class("a", "p", ["work 1"])],
        clients=[Client(f"c{kind}", count, True, ["submit a as x", "get x"]) for kind in range(KINDS)],
    )
    return (plan.text() + SEPARATOR + "client 0\n").encode(), b"1: started job 0\nrefusals 0, unfinished 1\n"
