"""The inputs of the benchmark of the parser for plans: texts of several shapes, each of exactly the requested size in bytes."""

from dataclasses import dataclass

from machine import Class, Client, Plan, Pool

MOST_CLASSES = 256
MOST_CLIENTS = 256
MOST_ACTIONS = 256
LETTERS = "abcdefghijklmnopqrstuvwxyz"
READ = "ok"


@dataclass
class Text:
    """A text, and the expected output of a reader of plans for it. A reader of TOML prints `ok` for each text."""

    name: str
    text: str
    printed: str


def all_texts(size):
    """Returns one text of each shape, all of this size."""
    return [long_names(size), half_a_comment(size), refused_at_the_end(size), full_bodies(size), no_entries(size)]


def long_names(size):
    """Returns a plan with 256 classes, names of 32 bytes, and bodies of submits and gets that are as long as the size allows."""
    return Text("long names", filled(plan_of_long_names(size, True), size), READ)


def half_a_comment(size):
    """Returns a text whose first half is a plan as in `long_names`, and whose second half is one comment."""
    return Text("half a comment", filled(plan_of_long_names(size // 2, True), size), READ)


def refused_at_the_end(size):
    """Returns a plan as in `long_names`, except that the last action is a get of an empty slot, which is a fault."""
    text = filled(plan_of_long_names(size, False), size)
    return Text("refused at the end", text, "fault 13 SlotEmpty at client 0 action 1")


def full_bodies(size):
    """Returns a plan with short names and 256 actions in each body, all submits before all gets. It has the most actions for its size."""
    slots = [first + second for first in LETTERS for second in LETTERS][:MOST_ACTIONS // 2]
    body = [f"submit a as {slot}" for slot in slots] + [f"get {slot}" for slot in slots]
    names = [*LETTERS, *(first + second for first in LETTERS for second in LETTERS)]

    def plan(bodies):
        classes = [Class(name, "p", body) for name in names[:min(bodies, MOST_CLASSES)]]
        clients = [Client(name, 1, True, body) for name in names[:bodies - len(classes)]]
        return Plan([Pool("p", 1, 1, 1)], classes, clients)

    return Text("full bodies", filled(largest(plan, MOST_CLASSES + MOST_CLIENTS, size).text(), size), READ)


def no_entries(size):
    """Returns a text that is one comment."""
    return Text("a comment alone", filled("", size), READ)


def plan_of_long_names(size, is_lawful):
    names = [f"class_{number:026}" for number in range(MOST_CLASSES)]
    slots = [f"slot_{number:027}" for number in range(MOST_ACTIONS // 2)]
    pool = Pool(f"pool_{0:027}", 1, 1, 1)
    last = slots[0] if is_lawful else slots[1]
    client = Client(f"client_{0:025}", 1, True, [f"submit {names[0]} as {slots[0]}", f"get {last}"])

    def plan(pairs):
        body = []
        for name, slot in zip(names, slots[:pairs]):
            body += [f"submit {name} as {slot}", f"get {slot}"]
        return Plan([pool], [Class(name, pool.name, body) for name in names], [client])

    return largest(plan, MOST_ACTIONS // 2, size).text()


def largest(make, most, size):
    """Returns `make(n)` for the largest n from 0 to `most` for which the text of `make(n)` has at most this size.

    Calls `make` with at most twice this n.
    """
    high = 1
    while high <= most and len(make(high).text()) <= size:
        high *= 2
    low, high = high // 2, min(high - 1, most)
    while low < high:
        middle = (low + high + 1) // 2
        if len(make(middle).text()) <= size:
            low = middle
        else:
            high = middle - 1
    return make(low)


def filled(text, size):
    """Returns the text, padded to this size with a comment."""
    left = size - len(text)
    if left < 0:
        raise AssertionError("the plan is too long")
    return text + ("#" * (left - 1) + "\n" if left > 0 else "")
