"""A plan whose bodies are the paths that the actors of a list of events took. No actor skips a submit on it, so `sizing replay` can
replay the events.

Each client becomes a separate client kind, whose body is the actions of the client's rounds and then the rest of its body. Each job
becomes a separate class in the same way. Skipped submits and their gets are on no path, so the plan has no events for them.
"""

import sys
from pathlib import Path

sys.path.insert(0, str(Path(__file__).resolve().parent.parent))

from small_plans import Class, Client, Plan

# The answers to events that the plan of the paths does not have. The answers to `stuck` are among them, since they may differ: an actor
# that is going to skip a part does not wait yet, but on its path it is already after that part, where it may wait.
OFF_THE_PATHS = ("left out", "passed", "looped", "stuck yes", "stuck no")
MOST_ACTIONS = 256


def plan_of_paths(machine):
    """Returns the plan of the paths, or None if a path is too long or has a submit that was refused and then skipped."""
    if machine.gave_up:
        return None
    old = len(machine.plan.classes)
    classes = list(machine.plan.classes) + [
        Class(f"j{job.number}", job.pool, path(job, old)) for job in machine.jobs
    ]
    clients = [Client(f"c{number}", 1, False, path(client, old)) for number, client in enumerate(machine.clients)]
    if len(classes) > MOST_ACTIONS or any(len(one.body) > MOST_ACTIONS for one in classes + clients):
        return None
    return Plan(machine.plan.pools, classes, clients)


def path(actor, old):
    body = [(what, old + operand.number) if what == "submit" else (what, operand) for what, operand in actor.path]
    spots = dict(actor.spots)
    for position in range(actor.position, len(actor.body)):
        what, operand = actor.body[position]
        if what == "submit":
            spots[position] = len(body)
        elif what == "get" and operand < actor.position:
            if actor.made[operand] is None:
                continue
        body.append((what, spots[operand]) if what == "get" else (what, operand))
    return body


def on_the_paths(events, answers):
    """Returns those of the events that the plan of the paths has, and their answers."""
    kept = [(event, answer) for event, answer in zip(events, answers) if answer not in OFF_THE_PATHS]
    return [event for event, _ in kept], [answer for _, answer in kept]
