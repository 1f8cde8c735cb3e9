"""The inputs of the benchmark of `sizing check` and `sizing explain`: plans with their certificates, of several shapes.

A filled certificate has as many numbers as fit into the requested size, nearly all of one digit. White space follows up to that size.
"""

from dataclasses import dataclass
from functools import cache

from certificates import Certificate, Vector, actions
from machine import Class, Client, Plan, Pool
from plan_texts import LETTERS, MOST_ACTIONS, MOST_CLASSES, MOST_CLIENTS, filled, largest

SEPARATOR = "%%\n"
MOST_POOLS = 64
MOST_SIZE = 1_000_000
FEW_CLIENTS = 2
# The number of classes in `long_names` that only work. The other classes submit them.
INNER_CLASSES = 32


@dataclass
class Bundle:
    """A plan and a certificate for it."""

    name: str
    certificate: Certificate
    plan_text: str
    certificate_text: str

    def input(self):
        """Returns the input of the programs."""
        return (self.plan_text + SEPARATOR + self.certificate_text).encode()


def bundle(name, certificate, size, is_plan_filled=False):
    """Returns a bundle of a certificate that is filled to this size and its plan, which is filled to the same size or unchanged."""
    plan_text = certificate.plan.text()
    return Bundle(
        name,
        certificate,
        filled(plan_text, size) if is_plan_filled else plan_text,
        certificate.text().ljust(size),
    )


def long_names(size):
    """Returns a bundle with names of 32 bytes, and bodies that get each job before they submit the next. Both texts are filled."""
    names = [f"class_{number:026}" for number in range(MOST_CLASSES)]
    slots = [f"slot_{number:027}" for number in range(MOST_ACTIONS // 2)]
    outer, inner = names[:-INNER_CLASSES], names[-INNER_CLASSES:]

    def plan(pools, pairs):
        pools = [Pool(f"pool_{number:027}", 2, 2, 1) for number in range(pools)]
        body = []
        for number, slot in enumerate(slots[:pairs]):
            body += [f"submit {inner[number % INNER_CLASSES]} as {slot}", f"get {slot}"]
        classes = [Class(name, pools[0].name, body) for name in outer]
        classes += [Class(name, pools[0].name, ["work 1"]) for name in inner]
        client = Client(f"client_{0:025}", 1, True, [f"submit {outer[0]} as {slots[0]}", f"get {slots[0]}"])
        return Plan(pools, classes, [client])

    return of_most_pools("long names", lambda pools: largest(lambda pairs: plan(pools, pairs), len(slots), size), size)


def full_bodies(size):
    """Returns a bundle with short names, and bodies of 256 actions that begin with all submits. Both texts are filled."""
    slots = [first + second for first in LETTERS for second in LETTERS][:MOST_ACTIONS // 2]
    body = [f"submit a as {slot}" for slot in slots] + [f"get {slot}" for slot in slots]
    names = [*LETTERS, *(first + second for first in LETTERS for second in LETTERS)]

    def plan(pools, bodies):
        pools = [Pool(name, 2, 2, MOST_SIZE) for name in names[:pools]]
        outer = [Class(name, pools[-1].name, body) for name in names[1:min(bodies + 1, MOST_CLASSES)]]
        clients = [Client(name, 1, True, body) for name in names[:bodies - len(outer)]]
        return Plan(pools, [Class("a", "a", ["work 1"]), *outer], clients)

    most = MOST_CLASSES - 1 + MOST_CLIENTS
    return of_most_pools("full bodies", lambda pools: largest(lambda bodies: plan(pools, bodies), most, size), size)


def of_most_pools(name, plan, size):
    """Returns the bundle of the plan with the largest number of pools whose certificate has at most this size."""
    most = largest(lambda pools: accepted(plan(max(pools, 1))), MOST_POOLS, size)
    return bundle(name, most, size, is_plan_filled=True)


def long_rows(size, clients=FEW_CLIENTS):
    """Returns a bundle with 64 pools, one client kind, and bodies of 256 actions. Each vector has few rows, of 259 numbers each."""
    pair = ["submit a as x", "get x"]

    def certificate(outer):
        pools = [Pool(f"p{number}", 2, 2, MOST_SIZE) for number in range(MOST_POOLS)]
        classes = [Class(f"b{number}", pools[number].name, pair * (MOST_ACTIONS // 2)) for number in range(outer)]
        return accepted(Plan(pools, [Class("a", "p0", ["work 1"]), *classes], [Client("c", clients, True, pair)]))

    return bundle("64 pools, long rows", largest(certificate, MOST_POOLS, size), size)


def short_rows(size):
    """Returns a bundle with 64 pools, 256 classes and 256 client kinds. Each vector has many short rows."""
    bodies = MOST_CLASSES + MOST_CLIENTS

    def certificate(works):
        pools = [Pool(f"p{number}", 2, 2, 1) for number in range(MOST_POOLS)]
        body = [["work 1"] * ((works + number) // bodies) for number in range(bodies)]
        classes = [Class(f"a{number}", pools[number % MOST_POOLS].name, body[number]) for number in range(MOST_CLASSES)]
        clients = [Client(f"c{number}", 1, True, body[MOST_CLASSES + number]) for number in range(MOST_CLIENTS)]
        return accepted(Plan(pools, classes, clients))

    return bundle("64 pools, short rows", largest(certificate, bodies * MOST_ACTIONS, size), size)


def every_condition_fails(size):
    """Returns a bundle with 64 pools, and bodies that only submit the first class. Each rule fails at each of its places."""
    target = "job_00"
    body = [f"submit {target}"] * MOST_ACTIONS

    def certificate(classes):
        pools = [Pool(f"p{number:02}", 1, 1, 1) for number in range(MOST_POOLS)]
        plan = Plan(
            pools,
            [Class(f"job_{number:02}", pools[number].name, body) for number in range(max(classes, 1))],
            [Client("client_0", MOST_SIZE, False, body[:1])],
        )
        return refused(plan)

    return bundle("every condition fails", largest(certificate, MOST_POOLS, size), size)


def accepted(plan):
    """Returns a certificate that accepts a plan whose classes submit only classes that submit nothing.

    In each vector, the weight of each body covers the weight that its submits take before its gets return it. Each class of the
    vector's pool has at least weight 1 in a standing vector. Each class of the pool with a get has at least weight 1 in a blocked
    vector.
    """
    bodies = [actions(plan, of_class.body) for of_class in plan.classes]
    of_clients = [actions(plan, client.body) for client in plan.clients]
    standing, blocked = [], []
    for pool in plan.pools:
        inside = [int(of_class.pool == pool.name) for of_class in plan.classes]
        gets = [int(of_class.pool == pool.name and has(body, "get")) for of_class, body in zip(plan.classes, bodies)]
        standing.append(balanced(plan, bodies, of_clients, inside))
        blocked.append(balanced(plan, bodies, of_clients, gets))
    levels = [int(has(body, "submit")) for body in bodies]
    none = [0] * len(plan.classes)
    return Certificate(plan, standing, blocked, [0] * len(plan.pools), none, levels)


def has(body, word):
    return any(each == word for each, _ in body)


def balanced(plan, bodies, of_clients, least):
    """Returns the least vector in which each class has at least these weights, and the weight of each actor covers its submits."""

    @cache
    def first(number):
        return max(least[number], -min(changes(bodies[number])))

    @cache
    def changes(body):
        given = [0]
        for word, other in body:
            change = {"submit": -1, "get": 1}.get(word, 0)
            given.append(given[-1] + (change and change * first(other)))
        return given

    classes = [[first(number), *(first(number) + change for change in changes(body)), first(number)]
               for number, body in enumerate(bodies)]
    clients = [[change - min(changes(body)) for change in changes(body)] for body in of_clients]
    return Vector([0] * len(plan.pools), classes, clients)


def refused(plan):
    """Returns a certificate each of whose conditions fails, for a plan whose bodies only submit its first class.

    A submit fails since the submitted job weighs 2 and its actor still weighs 2 afterwards. In the standing vector of a class's own
    pool, a queued job of the class must weigh 0, so that its condition fails. In that of the first class's pool, the weight of each
    actor therefore grows at each submit.
    """
    standing = [weighty(plan, pool) for pool in plan.pools]
    standing[0] = growing(plan)
    none = [0] * len(plan.classes)
    return Certificate(plan, standing, [weighty(plan, None) for _ in plan.pools], [1] * len(plan.pools), none, none)


def weighty(plan, pool):
    def row(of_class):
        queued = 0 if pool is not None and of_class.pool == pool.name else 2
        return [queued, 3, *([2] * len(of_class.body)), 3]

    clients = [[2] * (len(client.body) + 1) for client in plan.clients]
    return Vector([0] * len(plan.pools), [row(of_class) for of_class in plan.classes], clients)


def growing(plan):
    def row(of_class):
        return [0, *range(1, len(of_class.body) + 3)]

    clients = [list(range(1, len(client.body) + 2)) for client in plan.clients]
    return Vector([0] * len(plan.pools), [row(of_class) for of_class in plan.classes], clients)
