#!/usr/bin/env python3
"""Compares the search for certificates with a second search, written independently in Python, on small random plans.

For each plan the second search determines the bounds that `sizing check` must print for the certificate that `sizing certify` finds,
or that `certify` finds none. Both searches use the following method. The second search has no shortcuts: it finds some numbers by
trial that the program computes.

1. The level of a class is one more than the highest level of the classes that it submits. A plan with a cycle of submits has no
   certificate.
2. A least vector is computed class by class, from the lowest level up, and for each body from its end backwards. The weight at the
   end is that of a done job plus that of a worker. A submit adds the weight of its queued job. A get subtracts the weight of its done
   job. No weight is less than its minimum. The weight of a queued job is that at its beginning minus that of a worker. The weight of
   a done job is the greatest one, up to that of a queued job, that does not increase the weight of a queued job. A client that
   repeats must have the same weight at its end and at its beginning; otherwise there is no vector.
3. The weight of workers is 0 at first. While the total exceeds its bound, one pool lends: the weight of its workers becomes the
   greatest weight of its jobs, computed with weight 0 for these workers and for done jobs of the pool. Only classes that a client,
   or a job that a client causes, submits are considered. The pool that lends is the one whose loan gives the least total. If no loan
   reduces the total, no vector is found. (If a class that is never submitted weighs too much, a pool lends to prevent that. The
   random plans are too small for this case.)
4. In each round, from round 0, each pool without a rank whose blocked vector is found gets the number of the round as its rank. A
   get is not counted if its jobs depend only on pools with ranks. In round 0 each pool also needs a standing vector or, if there is
   none, a lifetime vector: all jobs of the pool weigh at least 1 at every point, gets subtract nothing, and no pool lends. A pool that
   may reject jobs needs neither: if none is found, it has no bound. For a pool with an unbounded queue only a standing vector is
   searched for, whatever its total is: pools lend as long as a loan reduces the total. If there is none, the pool has no bound.

In a third of the plans, pools may reject jobs. In half of them, queues may be unbounded. In two fifths of them, core threads of pools
may time out: the total of such a pool's blocked vector must be 0, and its lifetime vector is bounded by its queue alone.

    python3 checks/found_certs.py [PLANS [SEED]]     # by default 2,000 plans and seed 1

The program is crates/sizing/out/sizing, or the one that the environment variable SIZING names.

Exit status: 0 if both agree on each plan, 1 if they do not, 2 if there is no program.
"""

import random
import sys

sys.dont_write_bytecode = True

from asking import built_program, each, written
from small_plans import NO_CAPACITY, NO_MAXIMUM, flag_lines, size_lines

MOST_WEIGHT = 1_000_000_000
MOST_LOANS = 256


def main():
    if not (program := built_program()):
        return 2
    words = [int(word) for word in sys.argv[1:]]
    count, seed = (words + [2000, 1][len(words):])[:2]
    chance = random.Random(seed)
    plans = [plan_by_chance(chance, *kinds_of(number)) for number in range(count)]
    answers = [answer(plan) for plan in plans]
    printed = each(lambda plan: output_for(program, text(plan)), plans)
    differing = [number for number in range(count) if printed[number] != answers[number]]
    for number in differing[:3]:
        print(f"for plan {number},\n{text(plans[number])}the answer is\n{printed[number]}\ninstead of\n{answers[number]}")
    found = sum(printed != NONE for printed in answers)
    lifetimes = sum("lifetime" in printed for printed in answers)
    rejecting = sum("may reject" in printed for printed in answers)
    bounded, unbounded = (sum(words in printed for printed in answers) for words in (" of unbounded", ": unbounded"))
    timed = sum(found != NONE and any(pool.core_timeout for pool in plan.pools) for plan, found in zip(plans, answers))
    print(f"{count} plans, {len(differing)} differ; {found} get a certificate, {lifetimes} of them with a lifetime vector, "
          f"{rejecting} with a pool that may reject jobs and has no bound, {bounded} with a bound of an unbounded queue, "
          f"{unbounded} with an unbounded queue that has no bound, {timed} with a pool whose core threads may time out")
    return 1 if differing else 0


def output_for(program, plan):
    """Returns the output of `check` for the certificate that `certify` finds, or the output of `certify` if it finds none."""
    bundle = written(program, ["certify"], plan)
    return (written(program, ["check"], bundle) if "\n%%\n" in f"\n{bundle}" else bundle).strip()


# ---- random plans

NONE = "no certificate found"


class Pool:
    def __init__(self, core, most, queue, prestart, may_reject=False, unbounded=False, core_timeout=False):
        self.core, self.most, self.queue, self.prestart, self.may_reject = core, most, queue, prestart, may_reject
        self.unbounded, self.core_timeout = unbounded, core_timeout
        if unbounded:
            self.most, self.queue = most if core_timeout else core, NO_CAPACITY

    def needs_no_bound(self):
        return self.may_reject or self.unbounded

    def least_threads(self):
        """Returns the number of threads that the pool has at least while a job is queued."""
        return 1 if self.core_timeout else self.core

    def lending_threads(self):
        """Returns the number of threads whose weight a total counts, which is at least the number that the pool ever has."""
        return self.most

    def lifetime_limit(self):
        """Returns the number of jobs that the pool accepts before it can refuse one."""
        return self.queue if self.core_timeout else self.queue + self.most - (self.core if self.prestart else 0)


class Class:
    def __init__(self, pool, body):
        self.pool, self.body = pool, body


class Client:
    def __init__(self, count, repeat, body):
        self.count, self.repeat, self.body = count, repeat, body


class Plan:
    def __init__(self, pools, classes, clients):
        self.pools, self.classes, self.clients = pools, classes, clients
        self.submitted = self.submitted_classes()

    def submitted_classes(self):
        """Returns the classes that clients submit, and all classes that the jobs of these classes submit, directly or indirectly."""
        found, pending = set(), [client.body for client in self.clients]
        while pending:
            for word, what in pending.pop():
                if word == "submit" and what not in found:
                    found.add(what)
                    pending.append(self.classes[what].body)
        return found


def kinds_of(number):
    """Returns whether pools of the random plan with this number may reject jobs, whether they may have unbounded queues, and whether their
    core threads may time out."""
    return number % 3 == 2, number % 2 == 1, number % 5 > 2


def plan_by_chance(chance, rejecting=False, unbounded=False, timed=False):
    """Returns a random plan. If it is rejecting, each of its pools may reject jobs with a chance of one half, and may then have a queue
    of 0. If it is unbounded, each of its pools has an unbounded queue with a chance of two fifths. If it is timed, core threads of each
    pool may time out with a chance of one half, and a pool with an unbounded queue may then have no maximum."""
    pools = [pool_by_chance(chance, rejecting, unbounded, timed) for _ in range(chance.randint(1, 4))]
    count = chance.randint(1, 5)
    # In most plans, a class submits only classes before it. A few plans have cycles of submits.
    free = chance.random() < 0.05
    classes = [
        Class(chance.randrange(len(pools)), body_by_chance(chance, count if free else number))
        for number in range(count)
    ]
    clients = [
        Client(chance.choice([1, 1, 2, 3, 10]), chance.random() < 0.6, body_by_chance(chance, count))
        for _ in range(chance.randint(1, 3))
    ]
    order = list(range(count))
    chance.shuffle(order)
    return Plan(pools, *renumbered(classes, clients, order))


def pool_by_chance(chance, rejecting, unbounded, timed):
    core = chance.randint(1, 4)
    most, queue, prestart = core + chance.choice([0, 0, 1, 3]), chance.choice([1, 2, 3, 5, 10, 30]), chance.random() < 0.2
    may_reject = rejecting and chance.random() < 0.5
    synchronous = may_reject and chance.random() < 0.3
    pool = Pool(core, most, 0 if synchronous else queue, prestart, may_reject, unbounded and chance.random() < 0.4)
    return with_timeouts(chance, pool, most) if timed and chance.random() < 0.5 else pool


def with_timeouts(chance, pool, most):
    """Returns the pool whose core threads may time out, with at most this number of threads or, if its queue is unbounded, maybe without
    a maximum."""
    pool.core_timeout = True
    pool.most = NO_MAXIMUM if pool.unbounded and chance.random() < 0.5 else most
    return pool


def body_by_chance(chance, classes):
    body, open_submits = [], []
    for _ in range(chance.randint(0, 6)):
        kind = chance.random()
        if open_submits and kind < 0.4:
            body.append(("get", open_submits.pop(chance.randrange(len(open_submits)))))
        elif classes and kind < 0.85:
            open_submits.append(len(body))
            body.append(("submit", chance.randrange(classes)))
        else:
            body.append(("work", 1))
    if chance.random() < 0.7:
        body += [("get", submit) for submit in open_submits]
    return body


def renumbered(classes, clients, order):
    def body(actions):
        return [(word, order[what]) if word == "submit" else (word, what) for word, what in actions]

    placed = [None] * len(classes)
    for old, new in enumerate(order):
        placed[new] = Class(classes[old].pool, body(classes[old].body))
    return placed, [Client(client.count, client.repeat, body(client.body)) for client in clients]


# ---- the texts of plans

def text(plan):
    lines = []
    for number, pool in enumerate(plan.pools):
        lines += ["[[pool]]", f'name = "p{number}"', *size_lines(pool, pool.most), *flag_lines(pool)]
    for number, entry in enumerate(plan.classes):
        lines += ["[[class]]", f'name = "a{number}"', f'pool = "p{entry.pool}"', f"body = {spelled(entry.body)}"]
    for number, client in enumerate(plan.clients):
        lines += ["[[client]]", f'name = "c{number}"', f"count = {client.count}"]
        lines += ["repeat = true"] if client.repeat else []
        lines += [f"body = {spelled(client.body)}"]
    return "\n".join(lines) + "\n"


def spelled(body):
    words = []
    for place, (word, what) in enumerate(body):
        if word == "work":
            words.append('"work 1"')
        elif word == "get":
            words.append(f'"get s{what}"')
        elif ("get", place) in body:
            words.append(f'"submit a{what} as s{place}"')
        else:
            words.append(f'"submit a{what}"')
    return "[" + ", ".join(words) + "]"


# ---- the method

def answer(plan):
    levels = levels_of(plan)
    if levels is None:
        return NONE
    ranks = [None] * len(plan.pools)
    bounds, blocked = {}, {}
    rank = 0
    while None in ranks:
        reached = reach(plan, levels, [rank if known is None else known for known in ranks])
        unranked = [pool for pool, known in enumerate(ranks) if known is None]
        for pool in unranked:
            if rank == 0:
                bounds[pool] = bound(plan, levels, pool)
                if bounds[pool] is None and not plan.pools[pool].needs_no_bound():
                    return NONE
            blocked[pool] = blocked_total(plan, levels, pool, reached, rank)
        placed = [pool for pool in unranked if blocked[pool] is not None]
        if not placed:
            return NONE
        for pool in placed:
            ranks[pool] = rank
        rank += 1
    lines = ["yes"]
    for pool, sizes in enumerate(plan.pools):
        lines.append(f"pool p{pool}: {bound_words(sizes, bounds[pool])}, blocked {blocked[pool]} of {sizes.least_threads() - 1}")
    return "\n".join(lines)


def bound_words(sizes, found):
    if found is None:
        return "unbounded" if sizes.unbounded else "may reject"
    return "{} {} of {}".format(*found)


def levels_of(plan):
    levels = {}

    def level(number, path):
        if number in path:
            return None
        if number not in levels:
            below = [level(what, path | {number}) for word, what in plan.classes[number].body if word == "submit"]
            if None in below:
                return None
            levels[number] = 1 + max(below) if below else 0
        return levels[number]

    found = [level(number, frozenset()) for number in range(len(plan.classes))]
    return None if None in found else found


def reach(plan, levels, ranks):
    reached = {}
    for number in sorted(range(len(levels)), key=lambda number: levels[number]):
        entry = plan.classes[number]
        got = [reached[entry.body[what][1]] for word, what in entry.body if word == "get"]
        reached[number] = max([ranks[entry.pool]] + got)
    return reached


def bound(plan, levels, pool):
    sizes = plan.pools[pool]
    queued = [1 if entry.pool == pool else 0 for entry in plan.classes]
    nothing = [[0] * (len(entry.body) + 1) for entry in plan.classes]
    if sizes.unbounded:
        total = lightest_total(plan, levels, queued, nothing)
        return None if total is None else ("standing", total, "unbounded")
    total = least_total(plan, levels, queued, nothing, standing_limit(plan, pool))
    if total is not None:
        return "standing", total, sizes.queue
    limit = sizes.lifetime_limit()
    everywhere = [[need] * (len(entry.body) + 1) for need, entry in zip(queued, plan.classes)]
    total = Weights(plan, levels, queued, everywhere, [0] * len(plan.pools), gives_back=False).total()
    return ("lifetime", total, limit) if total is not None and total <= limit else None


def standing_limit(plan, pool):
    """Returns the most jobs that the bounded queue of a pool has room for."""
    return plan.pools[pool].queue


def blocked_total(plan, levels, pool, reached, rank):
    needs = []
    for entry in plan.classes:
        counted = [
            word == "get" and entry.pool == pool and reached[entry.body[what][1]] >= rank for word, what in entry.body
        ]
        needs.append([int(one) for one in counted] + [0])
    return least_total(plan, levels, [0] * len(plan.classes), needs, plan.pools[pool].least_threads() - 1)


def least_total(plan, levels, queued, needs, limit):
    """Returns the least total, with workers that lend, if it is at most the limit, or None if none is found."""
    total = total_with_loans(plan, levels, queued, needs, limit)
    return total if total <= limit else None


def lightest_total(plan, levels, queued, needs):
    """Returns the least total, with workers that lend, or None if there is no vector."""
    total = total_with_loans(plan, levels, queued, needs, 0)
    return None if total == float("inf") else total


def total_with_loans(plan, levels, queued, needs, limit):
    """Returns the total after loans: the first that is at most the limit, or the least one."""
    workers = [0] * len(plan.pools)

    def weights(workers):
        return Weights(plan, levels, queued, needs, workers)

    def total_of(workers):
        total = weights(workers).total()
        return float("inf") if total is None else total

    total = total_of(workers)
    for _ in range(MOST_LOANS):
        if total <= limit:
            return total
        loans = []
        for pool in range(len(plan.pools)):
            without = workers[:pool] + [0] + workers[pool + 1:]
            peak = weights(without).peak(pool)
            lent = workers[:pool] + [peak] + workers[pool + 1:]
            loans.append((total_of(lent), pool, lent))
        least = min(loans)
        if not least[0] < total:
            return total
        total, _, workers = least
    return total


class Weights:
    """The least weights of jobs and clients, computed class by class from the lowest level up."""

    def __init__(self, plan, levels, queued, needs, workers, gives_back=True):
        self.plan, self.workers, self.gives_back = plan, workers, gives_back
        self.queued, self.done, self.rows = {}, {}, {}
        self.peaks = [0] * len(plan.pools)
        for number in sorted(range(len(levels)), key=lambda number: levels[number]):
            self.weigh(number, plan.classes[number], queued[number], needs[number])

    def weigh(self, number, entry, need_queued, needs):
        worker = self.workers[entry.pool]

        def with_done(done):
            row = self.back(entry.body, max(done + worker, needs[-1]), needs)
            return row, max(row[0] - worker, need_queued)

        row, least = with_done(0)
        if number in self.plan.submitted:
            self.peaks[entry.pool] = max(self.peaks[entry.pool], max(row))
        tries = range(least, -1, -1)
        done = next(done for done in tries if with_done(done)[1] == least)
        self.queued[number], self.done[number] = least, done
        self.rows[number] = with_done(done)[0]

    def back(self, body, end, needs):
        """Returns the weight of an actor at each position of the body, computed from the end of the body backwards."""
        row = [end]
        for (word, what), need in zip(reversed(body), reversed(needs[:-1])):
            weight = row[0]
            if word == "submit":
                weight += self.queued[what]
            elif word == "get" and self.gives_back:
                weight = max(weight - self.done[body[what][1]], 0)
            row.insert(0, max(weight, need))
        return row

    def peak(self, pool):
        return self.peaks[pool]

    def total(self):
        """Returns the weight of the start, or None if there is no vector."""
        numbers = [number for row in self.rows.values() for number in row]
        total = sum(weight * pool.lending_threads() for weight, pool in zip(self.workers, self.plan.pools))
        for client in self.plan.clients:
            nothing = [0] * (len(client.body) + 1)
            start = self.back(client.body, 0, nothing)[0]
            row = self.back(client.body, start if client.repeat else 0, nothing)
            if row[0] > start:
                return None
            total += client.count * start
            numbers += row
        return None if max(numbers, default=0) > MOST_WEIGHT else total


if __name__ == "__main__":
    sys.exit(main())
