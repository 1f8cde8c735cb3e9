/* usage: walk_states STATES < PLAN

Walks through the states of a plan like the search of `sizing refute` on a plan in which no vector exceeds its bound: 48 walks in
fixed orders, and then walks in random orders. Prints the number of visited states. refute.py compares the time of that search with
the time of this program, which proves nothing and checks for no memory error except running out of memory.

PLAN is a sequence of numbers with white space between them:

- the number of pools, and for each pool its core, maximum, queue, and 1 if it is prestarted;
- the number of client kinds, and for each its count, 1 if it repeats, the number of its actions, and the actions;
- the number of classes, and for each its pool, the number of its actions, and the actions.

An action is two numbers: 0 0 for work, 1 and the class for a submit, or 2 and the position of the submit for a get. */

#include <stdbool.h>
#include <stdint.h>
#include <stdio.h>
#include <stdlib.h>
#include <string.h>

#define MOST_PARENTS 256
#define FIXED_ORDERS 48
#define CHANCE_WALKS 1500
#define MOST_POOLS 64
#define NONE SIZE_MAX

enum act { WORK, SUBMIT, GET };
enum phase { QUEUED, AT, DONE };
enum choice { BEGIN, FIRST, LATER, INNER, TAKE };
enum came { NOTHING, MOVED, MADE, REFUSED, FINISHED };
enum stepped { WENT, IS_REFUSED, NONE_LEFT };

struct action { size_t kind, of; };
struct body { size_t length; struct action *actions; size_t *places; };
struct pool { uint64_t core, max, capacity; bool prestarted; };
struct class { size_t pool; struct body body; };
struct client { uint64_t count; bool repeats; struct body body; };

static struct pool *pools;
static struct class *classes;
static struct client *kinds;
static size_t pool_count, class_count, kind_count;

struct actor { bool is_job; size_t number; };
struct job { size_t class, pool; struct actor parent; enum phase phase; size_t position, submit, newest, before; };
struct mover { size_t kind, position, newest; };
struct pool_now { uint64_t threads, idle; size_t *queue; size_t head, length, room; };
struct list { struct actor *items; size_t length, room; };
struct event { struct actor actor; size_t made; };

static struct { enum choice kind; size_t of; } *choices;
static size_t choice_count;

/* the state of the current walk */
static struct pool_now *now;
static struct job *jobs;
static size_t job_count, job_room;
static struct mover *movers;
static size_t mover_count, mover_room;
static struct list *ready;
static uint64_t *begun;
static bool has_blocked;
static struct event *script;
static size_t script_length, script_room;

static void *grown(void *items, size_t length, size_t *room, size_t size)
{
    if (length < *room)
        return items;
    *room = *room ? *room * 2 : 16;
    items = realloc(items, *room * size);
    if (!items)
        exit(3);
    return items;
}

static void *some(size_t count, size_t size)
{
    void *items = calloc(count + 1, size);
    if (!items)
        exit(3);
    return items;
}

static size_t number(void)
{
    size_t value;
    if (scanf("%zu", &value) != 1)
        exit(2);
    return value;
}

/* ---- the plan */

static size_t add_choice(enum choice kind, size_t of)
{
    choices[choice_count].kind = kind;
    choices[choice_count].of = of;
    return choice_count++;
}

static struct body read_body(bool is_client, size_t of)
{
    struct body body;
    bool first = is_client;
    body.length = number();
    body.actions = some(body.length, sizeof *body.actions);
    body.places = some(body.length, sizeof *body.places);
    for (size_t i = 0; i < body.length; i++) {
        body.actions[i].kind = number();
        body.actions[i].of = number();
        body.places[i] = NONE;
        if (body.actions[i].kind == SUBMIT) {
            body.places[i] = add_choice(!is_client ? INNER : first ? FIRST : LATER, of);
            first = false;
        }
    }
    return body;
}

static void read_plan(void)
{
    pool_count = number();
    pools = some(pool_count, sizeof *pools);
    for (size_t p = 0; p < pool_count; p++) {
        pools[p].core = number();
        pools[p].max = number();
        pools[p].capacity = number();
        pools[p].prestarted = number();
    }
    choices = some(1 << 18, sizeof *choices);
    kind_count = number();
    kinds = some(kind_count, sizeof *kinds);
    for (size_t k = 0; k < kind_count; k++) {
        kinds[k].count = number();
        kinds[k].repeats = number();
        add_choice(BEGIN, k);
        kinds[k].body = read_body(true, k);
    }
    class_count = number();
    classes = some(class_count, sizeof *classes);
    for (size_t k = 0; k < class_count; k++) {
        classes[k].pool = number();
        add_choice(TAKE, k);
        classes[k].body = read_body(false, k);
    }
}

/* ---- the machine */

static void start(void)
{
    for (size_t p = 0; p < pool_count; p++) {
        now[p].threads = now[p].idle = pools[p].prestarted ? pools[p].core : 0;
        now[p].head = now[p].length = 0;
    }
    for (size_t c = 0; c < choice_count; c++)
        ready[c].length = 0;
    memset(begun, 0, kind_count * sizeof *begun);
    job_count = mover_count = script_length = 0;
    has_blocked = false;
}

static bool point(struct actor actor, const struct body **body, size_t *position)
{
    if (actor.is_job) {
        const struct job *job = &jobs[actor.number];
        if (job->phase != AT)
            return false;
        *body = &classes[job->class].body;
        *position = job->position;
    } else {
        const struct mover *mover = &movers[actor.number];
        *body = &kinds[mover->kind].body;
        *position = mover->position;
    }
    return true;
}

static size_t *newest_of(struct actor actor)
{
    return actor.is_job ? &jobs[actor.number].newest : &movers[actor.number].newest;
}

static size_t child(struct actor actor, size_t submit)
{
    size_t next = *newest_of(actor);
    for (int i = 0; i < MOST_PARENTS && next != NONE; i++) {
        if (jobs[next].submit == submit)
            return next;
        next = jobs[next].before;
    }
    return NONE;
}

static size_t waits_for(struct actor actor)
{
    const struct body *body;
    size_t position;
    if (!point(actor, &body, &position) || position >= body->length || body->actions[position].kind != GET)
        return NONE;
    return child(actor, body->actions[position].of);
}

static void go_to(struct actor actor, size_t position)
{
    if (actor.is_job) {
        jobs[actor.number].phase = AT;
        jobs[actor.number].position = position;
    } else {
        movers[actor.number].position = position;
    }
}

static void enqueue(struct pool_now *pool, size_t job)
{
    if (pool->length == pool->room) {
        size_t room = pool->room ? pool->room * 2 : 16;
        size_t *queue = some(room, sizeof *queue);
        for (size_t i = 0; i < pool->length; i++)
            queue[i] = pool->queue[(pool->head + i) % pool->room];
        free(pool->queue);
        pool->queue = queue;
        pool->head = 0;
        pool->room = room;
    }
    pool->queue[(pool->head + pool->length++) % pool->room] = job;
}

static enum came submit(struct actor actor, size_t position, size_t class, size_t *made, bool *started)
{
    size_t of = classes[class].pool, *newest;
    struct pool_now *pool = &now[of];
    struct job *job;
    if (pool->threads < pools[of].core)
        *started = true;
    else if (pool->length < pools[of].capacity)
        *started = false;
    else if (pool->threads < pools[of].max)
        *started = true;
    else
        return REFUSED;
    if (*started)
        pool->threads++;
    else
        enqueue(pool, job_count);
    jobs = grown(jobs, job_count, &job_room, sizeof *jobs);
    newest = newest_of(actor);
    job = &jobs[job_count];
    job->class = class;
    job->pool = of;
    job->parent = actor;
    job->phase = *started ? AT : QUEUED;
    job->position = 0;
    job->submit = position;
    job->newest = NONE;
    job->before = *newest;
    *newest = job_count;
    *made = job_count++;
    go_to(actor, position + 1);
    return MADE;
}

static enum came act(struct actor actor, size_t *made, bool *started, struct actor *parent)
{
    const struct body *body;
    size_t position, got;
    if (!point(actor, &body, &position))
        return NOTHING;
    if (position == body->length) {
        if (actor.is_job) {
            struct job *job = &jobs[actor.number];
            job->phase = DONE;
            now[job->pool].idle++;
            *parent = job->parent;
            return FINISHED;
        }
        if (!kinds[movers[actor.number].kind].repeats)
            return NOTHING;
        movers[actor.number].position = 0;
        movers[actor.number].newest = NONE;
        return MOVED;
    }
    switch (body->actions[position].kind) {
    case WORK:
        go_to(actor, position + 1);
        return MOVED;
    case SUBMIT:
        return submit(actor, position, body->actions[position].of, made, started);
    default:
        got = child(actor, body->actions[position].of);
        if (got == NONE || jobs[got].phase != DONE)
            return NOTHING;
        go_to(actor, position + 1);
        return MOVED;
    }
}

/* ---- jobs that wait only for each other */

static bool *is_member, *closed;
static size_t member_room;

static bool waits(size_t number)
{
    size_t got;
    if (jobs[number].phase == QUEUED)
        return closed[jobs[number].pool];
    if (jobs[number].phase == DONE)
        return false;
    got = waits_for((struct actor){true, number});
    return got != NONE && is_member[got];
}

static bool any_stuck(bool for_ever)
{
    if (member_room < job_count + 1) {
        member_room = 2 * job_count + 64;
        is_member = realloc(is_member, member_room);
        if (!is_member)
            exit(3);
    }
    for (size_t j = 0; j < job_count; j++)
        is_member[j] = jobs[j].phase != DONE;
    for (int round = 0; round < MOST_POOLS + 2; round++) {
        bool changed = false;
        for (size_t p = 0; p < pool_count; p++)
            closed[p] = now[p].idle == 0 && (!for_ever || now[p].threads == pools[p].max);
        for (size_t j = 0; j < job_count; j++)
            if (jobs[j].phase == AT && !is_member[j])
                closed[jobs[j].pool] = false;
        for (size_t j = job_count; j-- > 0;)
            if (is_member[j] && !waits(j)) {
                is_member[j] = false;
                changed = true;
            }
        if (!changed)
            break;
    }
    for (size_t j = 0; j < job_count; j++)
        if (is_member[j])
            return true;
    return false;
}

/* ---- the walk */

static void record(struct actor actor, size_t made)
{
    script = grown(script, script_length, &script_room, sizeof *script);
    script[script_length].actor = actor;
    script[script_length++].made = made;
}

static void stand(struct actor actor, size_t place)
{
    struct list *list = &ready[place];
    list->items = grown(list->items, list->length, &list->room, sizeof *list->items);
    list->items[list->length++] = actor;
}

static void settle(struct actor actor)
{
    for (;;) {
        const struct body *body;
        size_t position, made;
        bool started;
        struct actor parent;
        enum came came;
        if (!point(actor, &body, &position))
            return;
        if (position < body->length && body->actions[position].kind == SUBMIT) {
            stand(actor, body->places[position]);
            return;
        }
        came = act(actor, &made, &started, &parent);
        if (came == NOTHING) {
            has_blocked = true;
            return;
        }
        record(actor, NONE);
        if (came == FINISHED) {
            if (waits_for(parent) != actor.number)
                return;
            actor = parent;
        }
    }
}

static enum stepped submit_by(struct actor actor)
{
    size_t made = NONE;
    bool started = false;
    struct actor parent;
    enum came came = act(actor, &made, &started, &parent);
    if (came == NOTHING)
        return NONE_LEFT;
    record(actor, made);
    if (came == REFUSED)
        return IS_REFUSED;
    settle(actor);
    if (came == MADE && started)
        settle((struct actor){true, made});
    return WENT;
}

static bool has_more(size_t kind)
{
    if (begun[kind] >= kinds[kind].count)
        return false;
    for (size_t i = 0; i < kinds[kind].body.length; i++)
        if (kinds[kind].body.actions[i].kind == SUBMIT)
            return true;
    return false;
}

static bool is_possible(size_t place, size_t most_movers)
{
    size_t of = choices[place].of;
    const struct pool_now *pool;
    switch (choices[place].kind) {
    case BEGIN:
        return mover_count < most_movers && has_more(of);
    case TAKE:
        pool = &now[classes[of].pool];
        return pool->idle && pool->length && jobs[pool->queue[pool->head]].class == of;
    default:
        return ready[place].length > 0;
    }
}

static enum stepped step(const uint64_t *keys, size_t most_movers)
{
    size_t best = NONE, of, job;
    uint64_t least = UINT64_MAX;
    struct actor client;
    struct pool_now *pool;
    for (size_t place = 0; place < choice_count; place++)
        if (is_possible(place, most_movers) && keys[place] < least) {
            least = keys[place];
            best = place;
        }
    if (best == NONE)
        return NONE_LEFT;
    of = choices[best].of;
    switch (choices[best].kind) {
    case BEGIN:
        movers = grown(movers, mover_count, &mover_room, sizeof *movers);
        movers[mover_count] = (struct mover){of, 0, NONE};
        client = (struct actor){false, mover_count++};
        begun[of]++;
        settle(client);
        ready[kinds[of].body.places[movers[client.number].position]].length--;
        return submit_by(client);
    case TAKE:
        pool = &now[classes[of].pool];
        job = pool->queue[pool->head];
        pool->head = (pool->head + 1) % pool->room;
        pool->length--;
        pool->idle--;
        go_to((struct actor){true, job}, 0);
        record((struct actor){true, job}, NONE);
        settle((struct actor){true, job});
        return WENT;
    default:
        return submit_by(ready[best].items[--ready[best].length]);
    }
}

static uint64_t chance = 0x9e3779b97f4a7c15;

static uint64_t next_chance(void)
{
    chance = chance * 6364136223846793005u + 1442695040888963407u;
    return chance >> 33;
}

static void shuffle(uint64_t *keys)
{
    for (size_t c = 0; c < choice_count; c++)
        keys[c] = next_chance();
}

/* Performs a walk, and returns the number of visited states. Sets `bad` to whether the walk ends in a refused submit or in jobs that
   wait only for each other. */
static size_t walk(uint64_t *keys, size_t most_movers, size_t most_states, bool changing, bool *bad)
{
    size_t states = 1, due = 8;
    start();
    for (size_t at = 1; at < most_states; at++) {
        if (changing && next_chance() % 16 == 0)
            shuffle(keys);
        switch (step(keys, most_movers)) {
        case IS_REFUSED:
            *bad = true;
            return states;
        case NONE_LEFT:
            *bad = any_stuck(false);
            return states;
        default:
            states++;
        }
        if (has_blocked && at >= due) {
            has_blocked = false;
            due = at + 8 + job_count / 4;
            if (any_stuck(false)) {
                *bad = true;
                return states;
            }
        }
    }
    *bad = any_stuck(false);
    return states;
}

static uint64_t key(size_t place, size_t order)
{
    static const uint64_t ranks[6][3] = {{0, 1, 2}, {0, 2, 1}, {1, 0, 2}, {1, 2, 0}, {2, 0, 1}, {2, 1, 0}};
    bool old_first = order / 6 % 2, places_down = order / 12 % 2, kinds_down = order / 24 % 2;
    enum choice kind = choices[place].kind;
    size_t group = kind == BEGIN || kind == FIRST ? 0 : kind == TAKE ? 2 : 1;
    bool down = group == 0 ? kinds_down : places_down;
    bool late = kind == BEGIN ? old_first : kind == FIRST ? !old_first : false;
    uint64_t of = group == 0 ? choices[place].of : place;
    if (down)
        of = of > 1000000 ? 0 : 1000000 - of;
    return ranks[order % 6][group] * 10000000 + of * 2 + late;
}

static size_t least(size_t a, size_t b)
{
    return a < b ? a : b;
}

int main(int count, char **words)
{
    size_t asked = count == 2 ? strtoul(words[1], NULL, 10) : 0, left = asked, longest = 128, aside;
    uint64_t *keys;
    bool bad = false;
    if (!asked) {
        fprintf(stderr, "usage: walk_states STATES < PLAN\n");
        return 2;
    }
    read_plan();
    now = some(pool_count, sizeof *now);
    ready = some(choice_count, sizeof *ready);
    begun = some(kind_count, sizeof *begun);
    closed = some(pool_count, sizeof *closed);
    keys = some(choice_count, sizeof *keys);
    for (size_t p = 0; p < pool_count; p++)
        longest += 12 * (pools[p].max + pools[p].capacity);
    aside = 0;
    for (size_t order = 0; order < FIXED_ORDERS && left && !bad; order++) {
        for (size_t c = 0; c < choice_count; c++)
            keys[c] = key(c, order);
        left -= walk(keys, NONE, least(longest, left), false, &bad);
        if (order == 0) {
            aside = left / 2;
            left -= aside;
        }
    }
    left += aside;
    aside = left / 2;
    left -= aside;
    for (size_t number = 0; number < CHANCE_WALKS && left && !bad; number++) {
        size_t few = number % 8 == 7 ? NONE : number % 8 + 1 + number / 64;
        shuffle(keys);
        left -= walk(keys, few, least(longest, left), number % 2, &bad);
    }
    left += aside;
    printf("%s%zu\n", bad ? "bad " : "", asked - left);
    return bad;
}
