"""Certificates for plans: their texts, and the expected answers of `sizing check` and `sizing explain`.

This module is an independent implementation of the rules: it derives each condition from the plan and the certificate alone.
Certificates have version 1.
"""

import json
from dataclasses import dataclass


@dataclass
class Vector:
    """A vector: a weight for the workers of each pool, for each point of each class, and for each position of each client kind."""

    workers: list
    classes: list
    clients: list


@dataclass
class Certificate:
    """A certificate for a plan: a standing and a blocked vector for each pool, and the ranks."""

    plan: object
    standing: list
    blocked: list
    pools: list
    reach: list
    levels: list

    def text(self):
        """Returns the certificate as JSON, as `sizing` writes it: without spaces, and with keys in alphabetical order."""
        pools = [{"standing": vars(standing), "blocked": vars(blocked)}
                 for standing, blocked in zip(self.standing, self.blocked)]
        ranks = {"pools": self.pools, "reach": self.reach, "levels": self.levels}
        return json.dumps({"version": 1, "pools": pools, "ranks": ranks}, separators=(",", ":"), sort_keys=True)


@dataclass
class Condition:
    """A condition: a rule at its place in a section. It holds if the left number is at most the right number."""

    section: str
    place: str
    rule: str
    left: int
    right: int

    def fails(self):
        return self.left > self.right

    def line(self):
        return f"{self.section}, {self.place}: {self.rule} {self.left} above {self.right}\n"


def checked(certificate):
    """Returns the expected answer of `sizing check` and its exit status."""
    plan = certificate.plan
    is_accepted = not any(condition.fails() for condition in conditions(certificate))
    lines = ["yes\n" if is_accepted else "no\n"]
    for pool, standing, blocked in zip(plan.pools, certificate.standing, certificate.blocked):
        of_queue = f"standing {total(plan, standing)} of {pool.queue}"
        lines.append(f"pool {pool.name}: {of_queue}, blocked {total(plan, blocked)} of {pool.core - 1}\n")
    return "".join(lines).encode(), 0 if is_accepted else 1


def explained(certificate):
    """Returns the expected answer of `sizing explain` and its exit status."""
    lines = [condition.line() for condition in conditions(certificate) if condition.fails()]
    return "".join([*lines, f"failing {len(lines)}\n"]).encode(), 1 if lines else 0


def total(plan, vector):
    """Returns the weight of the start: that of each client at its first position, and of the maximum number of workers of each pool."""
    clients = sum(client.count * weights[0] for client, weights in zip(plan.clients, vector.clients))
    return clients + sum(pool.max * weight for pool, weight in zip(plan.pools, vector.workers))


def conditions(certificate):
    """Yields every condition of the certificate, in order."""
    plan = certificate.plan
    classes = [(number, of_class, actions(plan, of_class.body)) for number, of_class in enumerate(plan.classes)]
    clients = [(number, client, actions(plan, client.body)) for number, client in enumerate(plan.clients)]
    rank = dict(zip([pool.name for pool in plan.pools], certificate.pools))
    yield from rank_conditions(certificate, rank, classes)
    for pool, standing, blocked in zip(plan.pools, certificate.standing, certificate.blocked):
        inside = [(number, of_class, body) for number, of_class, body in classes if of_class.pool == pool.name]
        section = f"pool {pool.name} standing"
        yield from vector_conditions(plan, section, standing, classes, clients)
        for number, of_class, _ in inside:
            yield Condition(section, f"class {of_class.name}", "S1", 1, standing.classes[number][0])
        yield Condition(section, "total", "S2", total(plan, standing), pool.queue)
        section = f"pool {pool.name} blocked"
        yield from vector_conditions(plan, section, blocked, classes, clients)
        for number, of_class, body in inside:
            for position, (word, other) in enumerate(body):
                if word == "get" and certificate.reach[other] >= rank[pool.name]:
                    place = f"class {of_class.name} action {position}"
                    yield Condition(section, place, "B1", 1, blocked.classes[number][position + 1])
        yield Condition(section, "total", "B2", total(plan, blocked), pool.core - 1)


def rank_conditions(certificate, rank, classes):
    reach, levels = certificate.reach, certificate.levels
    for number, of_class, body in classes:
        yield Condition("ranks", f"class {of_class.name}", "K1", rank[of_class.pool], reach[number])
        for position, (word, other) in enumerate(body):
            place = f"class {of_class.name} action {position}"
            if word == "get":
                yield Condition("ranks", place, "K2", reach[other], reach[number])
            elif word == "submit":
                yield Condition("ranks", place, "K3", levels[other] + 1, levels[number])


def vector_conditions(plan, section, vector, classes, clients):
    workers = dict(zip([pool.name for pool in plan.pools], vector.workers))
    for number, of_class, body in classes:
        place, (queued, *weights, done) = f"class {of_class.name}", vector.classes[number]
        yield Condition(section, place, "V4", weights[0], queued + workers[of_class.pool])
        yield from body_conditions(section, place, vector, weights, body)
        yield Condition(section, place, "V6", done + workers[of_class.pool], weights[-1])
    for number, client, body in clients:
        place, weights = f"client {client.name}", vector.clients[number]
        yield from body_conditions(section, place, vector, weights, body)
        if client.repeat:
            yield Condition(section, place, "V7", weights[0], weights[-1])


def body_conditions(section, place, vector, weights, body):
    for position, (word, other) in enumerate(body):
        before, after = weights[position], weights[position + 1]
        at = f"{place} action {position}"
        if word == "submit":
            yield Condition(section, at, "V3", after + vector.classes[other][0], before)
        elif word == "get":
            yield Condition(section, at, "V5", after, before + vector.classes[other][-1])
        else:
            yield Condition(section, at, "V2", after, before)


def actions(plan, body):
    """Returns, for each action, its word and the number of the class of the job that it submits or gets, or None for work."""
    numbers = {of_class.name: number for number, of_class in enumerate(plan.classes)}
    made, found = {}, []
    for action in body:
        word, what, *slot = action.split(" ")
        if word == "submit":
            other = numbers[what]
            if slot:
                made[slot[-1]] = other
        else:
            other = made[what] if word == "get" else None
        found.append((word, other))
    return tuple(found)
