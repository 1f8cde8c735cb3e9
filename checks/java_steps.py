"""The machine of small_plans.py in which a submit is the steps of Java's `execute`, and in which Java looks at a pool whose core threads
may time out.

A submit takes up to three events: the call starts a thread if the pool has fewer than core threads, or else offers the job to the queue,
or else requests a thread. Other events can occur between them.

If core threads of a pool may time out, any idle thread can end, even the last one while a job is queued. Java looks at the pool after
each successful offer (`execute`) and after the end of each thread (`processWorkerExit`). Until then the pool is in `looking`, once for
each look. The event `leave` is a look that finds a thread or an empty queue, and `spare` a look that starts a thread."""

from small_plans import QUEUED, REFUSED, STARTED, Machine, has_spare_worker, less_at, put

# The maximum number of looks at a pool that are open at the same time, in the states that are visited.
MOST_LOOKS = 2
# The maximum number of threads above core, in the states that are visited, of a pool without a maximum.
MOST_ABOVE_CORE = 2

OFFERS, REQUESTS = "offers", "requests"


class JavaMachine(Machine):
    """The machine in Java's steps. `looks_after_offers` and `looks_after_ends` are false in a Java that forgets these looks."""

    looks_after_offers = True
    looks_after_ends = True

    def events(self, state):
        yield from super().events(state)
        yield from ((word, pool) for word in ("leave", "spare") for pool in sorted(set(state.looking)))

    def step(self, state, event, new_number):
        word, number = event
        if word == "retire" and self.plan.pools[number].core_timeout:
            if not has_spare_worker(self.plan.pools[number], state, number) or not self.may_look(state, number):
                return None
            after = state._replace(idle=less_at(state.idle, number))
            return self.looking_at(after, number, self.looks_after_ends), "retired"
        if word == "leave":
            is_enough = self.threads(state, number) >= 1 or not state.queues[number]
            return (looked(state, number), "left") if number in state.looking and is_enough else None
        if word == "spare":
            if number not in state.looking or not self.may_start(state, number):
                return None
            return looked(state, number)._replace(idle=put(state.idle, number, state.idle[number] + 1)), "started a thread"
        return super().step(state, event, new_number)

    def may_look(self, state, number):
        return state.looking.count(number) < MOST_LOOKS

    def may_start(self, state, number):
        pool = self.plan.pools[number]
        return self.threads(state, number) < min(pool.max, pool.core + MOST_ABOVE_CORE if pool.unbounded else pool.max)

    def looking_at(self, state, number, looks):
        """Returns the state in which Java will look at the pool once more, if it does so after this event."""
        looks = looks and self.plan.pools[number].core_timeout
        return state._replace(looking=tuple(sorted((*state.looking, number)))) if looks else state

    def submit(self, state, actor, position, kind, number):
        of = self.plan.classes[kind].pool
        pool, step = self.plan.pools[of], dict(state.calls).get(actor)
        if step is None and self.threads(state, of) < pool.core:
            return self.answered(state, actor, position, kind, number, STARTED)
        if step is None:
            return with_call(state, actor, OFFERS), "offers next"
        ended = without_call(state, actor)
        if step == REQUESTS:
            return self.answered(ended, actor, position, kind, number, STARTED if self.threads(state, of) < pool.max else REFUSED)
        if not self.has_room(state, of):
            return with_call(ended, actor, REQUESTS), "requests next"
        if pool.core_timeout and not self.may_look(state, of):
            return None
        after, outcome = self.answered(ended, actor, position, kind, number, QUEUED)
        return self.looking_at(after, of, self.looks_after_offers), outcome

    def waits(self, state, jobs, number, members):
        if jobs[number].phase == QUEUED and self.pool_of(jobs[number]) in state.looking:
            return False
        return super().waits(state, jobs, number, members)


def looked(state, number):
    """Returns the state with one look at the pool less."""
    at = state.looking.index(number)
    return state._replace(looking=state.looking[:at] + state.looking[at + 1:])


def with_call(state, actor, step):
    return state._replace(calls=tuple(sorted((*state.calls, (actor, step)))))


def without_call(state, actor):
    return state._replace(calls=tuple(call for call in state.calls if call[0] != actor))
