/* usage: one_lock CLIENTS CARRIERS ROUNDS NESTED UNITS

   run.py compares `sizing run` with this program. Its threads make as many events as a run of a plan, under one mutex, and
   each event wakes all threads that wait at one condition variable.

   In each round a client submits a job and gets it, and between two rounds it has one further event. A job is taken and
   finished. Between these two events it submits a job and gets it, and so does that job, to a depth of NESTED jobs. The
   innermost job has UNITS events of work. The program has no pools and no plan, and stores only the number of events.

   Prints the number of events. */

#include <pthread.h>
#include <stdbool.h>
#include <stdio.h>
#include <stdlib.h>

enum { MOST_THREADS = 128 };

/* A job, which the thread that submits it owns. */
struct job {
    long nested;
    bool is_done;
    struct job *next;
};

static long clients, carriers, rounds, nested, units;

static pthread_mutex_t lock = PTHREAD_MUTEX_INITIALIZER;
static pthread_cond_t changed = PTHREAD_COND_INITIALIZER;
/* The variables below are read and written only under the lock. */
static struct job *first, **last = &first;
static long clients_left;
static long long events;

static void begin(void)
{
    pthread_mutex_lock(&lock);
}

static void end(void)
{
    events++;
    pthread_cond_broadcast(&changed);
    pthread_mutex_unlock(&lock);
}

static void pass(void)
{
    begin();
    end();
}

static void submit(struct job *job)
{
    begin();
    *last = job;
    last = &job->next;
    end();
}

static void get(struct job *job)
{
    begin();
    while (!job->is_done)
        pthread_cond_wait(&changed, &lock);
    end();
}

static void submit_and_get(long nested)
{
    struct job job = { nested, false, NULL };
    submit(&job);
    get(&job);
}

static void *client(void *unused)
{
    for (long round = 0; round < rounds; round++) {
        if (round > 0)
            pass();
        submit_and_get(nested);
    }
    begin();
    clients_left--;
    pthread_cond_broadcast(&changed);
    pthread_mutex_unlock(&lock);
    return unused;
}

/* Takes the next job. Waits for one if there is none, and returns NULL if no client is left that may submit one. */
static struct job *take(void)
{
    begin();
    while (first == NULL && clients_left > 0)
        pthread_cond_wait(&changed, &lock);
    struct job *job = first;
    if (job == NULL) {
        pthread_mutex_unlock(&lock);
        return NULL;
    }
    first = job->next;
    if (first == NULL)
        last = &first;
    end();
    return job;
}

static void *carrier(void *unused)
{
    for (struct job *job = take(); job != NULL; job = take()) {
        if (job->nested > 0)
            submit_and_get(job->nested - 1);
        else
            for (long unit = 0; unit < units; unit++)
                pass();
        begin();
        job->is_done = true;
        end();
    }
    return unused;
}

int main(int count, char **words)
{
    if (count != 6) {
        fputs("usage: one_lock CLIENTS CARRIERS ROUNDS NESTED UNITS\n", stderr);
        return 2;
    }
    clients = clients_left = atol(words[1]);
    carriers = atol(words[2]);
    rounds = atol(words[3]);
    nested = atol(words[4]);
    units = atol(words[5]);
    if (clients + carriers > MOST_THREADS)
        return 2;
    pthread_t threads[MOST_THREADS];
    for (long thread = 0; thread < clients + carriers; thread++)
        if (pthread_create(&threads[thread], NULL, thread < clients ? client : carrier, NULL) != 0)
            return 3;
    for (long thread = 0; thread < clients + carriers; thread++)
        pthread_join(threads[thread], NULL);
    printf("events %lld\n", events);
    return 0;
}
