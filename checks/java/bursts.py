"""Bursts of clients that submit once: as many jobs as the bound of a lifetime vector allows, and one more.

Derived by hand: a pool refuses a job only after `queue + max` other jobs, or `queue + max - core` if it is prestarted. The reason is
that each thread that is not prestarted was created for a job that was never queued. So a pool that gets at most that number of jobs in
its lifetime refuses none, in any order of steps. With one more job, there are two cases. If the pool is not prestarted and all jobs
are held until all clients have submitted, the jobs fill the pool, and each round refuses exactly one job. Otherwise a job is refused
only in some orders of steps, and the rounds continue until one has such an order.
"""

from collections import Counter
from typing import NamedTuple


class Line(NamedTuple):
    core: int
    max: int
    queue: int
    prestart: bool
    held: bool  # each job is held until all clients have submitted
    nested: bool  # each job submits another job to the pool

    def bound(self):
        return self.queue + self.max - self.core * self.prestart

    def clients(self):
        return self.bound() // (1 + self.nested)

    def each_round(self):
        """Returns whether each round with one job more than the bound refuses exactly one job."""
        return self.held and not self.prestart and not self.nested


LINES = [
    Line(1, 2, 1, False, True, False),
    Line(1, 2, 1, False, False, False),
    Line(1, 3, 2, False, True, False),
    Line(1, 3, 2, False, False, False),
    Line(2, 4, 3, False, True, False),
    Line(2, 5, 4, False, True, False),
    Line(3, 8, 6, False, True, False),
    # One more client is refused: the job that the first job submits is queued, so the next jobs start threads.
    Line(1, 3, 1, False, True, True),
    Line(1, 2, 2, False, True, True),
    Line(2, 4, 2, False, True, True),
    Line(1, 2, 1, True, True, False),
    Line(1, 3, 2, True, False, False),
    Line(2, 4, 3, True, True, False),
    Line(2, 3, 4, True, False, False),
]
ROUNDS = 200
# The maximum number of rounds if only some rounds refuse a job.
MOST_ROUNDS = 50_000
PART_LEFT_OUT = 0.2
KINDS = ("array", "linked")


def part(tools):
    return [*at_the_bound(tools), *one_more(tools), *slips(tools)]


def burst(line, kind, more, slow, leaves, until_refused, clients=None):
    words = (kind, line.core, line.max, line.queue, line.prestart, clients or line.clients(), more, line.held, line.nested, slow,
             leaves, MOST_ROUNDS if until_refused else ROUNDS, until_refused)
    return " ".join(str(word).lower() for word in words)


def done(tools, bursts):
    """Runs the bursts with these arguments, and returns the counts of each."""
    return [{what: int(number) for what, number in (words.rsplit(" ", 1) for words in counts.split(", "))}
            for counts in tools.run_java("Bursts", *bursts)]


def at_the_bound(tools):
    bursts = [burst(line, kind, 0, slow, leaves, False)
              for number, line in enumerate(LINES) for slow, leaves in ((False, 0), (True, 0), (True, PART_LEFT_OUT))
              for kind in (KINDS[(number + slow) % 2],)]
    counts = done(tools, bursts)
    wrong = [f"bursts at the bound, {words}: {found}" for words, found in zip(bursts, counts, strict=True) if found["refused in"]]
    print(f"bursts at the bound: {len(LINES)} pools, {sum(found['rounds'] for found in counts)} rounds, a thread requested although the queue "
          f"has room {sum(found['asked with room'] for found in counts)} times, refused in {sum(found['refused in'] for found in counts)} rounds", flush=True)
    return wrong


def one_more(tools):
    bursts = [burst(line, KINDS[number % 2], 1, not line.each_round(), 0, not line.each_round()) for number, line in enumerate(LINES)]
    counts = done(tools, bursts)
    wrong, sure, some = [], 0, []
    for line, words, found in zip(LINES, bursts, counts, strict=True):
        if line.each_round():
            sure += 1
            right = found["refused in"] == found["rounds"] == ROUNDS and found["most"] == 1
        else:
            some.append(found["rounds"])
            right = found["refused in"] == 1
        if not right:
            wrong.append(f"bursts with one more job, {words}: {found}")
    print(f"bursts with one more job: {sure} pools that refuse one job in each of {ROUNDS} rounds; {len(some)} that refuse in some, the "
          f"first after {', '.join(map(str, some))} rounds; with {len(wrong)} wrong", flush=True)
    return wrong


def slips(tools):
    """Checks that bursts find a wrong bound or a wrong size of each pool."""
    planted = [(name, line, jobs) for line in LINES for name, line, jobs in slips_of(line)]
    counts = done(tools, [burst(line, KINDS[number % 2], 0, True, 0, True, jobs) for number, (_, line, jobs) in enumerate(planted)])
    wanted = Counter(name for name, _, _ in planted)
    found = Counter(name for (name, _, _), one in zip(planted, counts, strict=True) if one["refused in"])
    print("deliberate errors, found: " + ", ".join(f"'{name}' {found[name]} of {number}" for name, number in wanted.items()), flush=True)
    return [f"bursts: the deliberate error '{name}' is found {found[name]} of {number} times" for name, number in wanted.items() if found[name] != number]


def slips_of(line):
    """Yields each deliberate error: its name, the sizes of the pool, and the number of jobs."""
    if line.prestart:
        yield "threads that are prestarted count as made for jobs", line, line.queue + line.max
    elif line.each_round():
        yield "the maximum is the core", line._replace(max=line.core), line.clients()
        if line.queue > 1:
            yield "the queue is one shorter", line._replace(queue=line.queue - 1), line.clients()
