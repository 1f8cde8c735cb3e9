/* A shared object that is loaded into a program with LD_PRELOAD, and that slows down each growth of the program's memory:
   a thread that calls malloc or realloc first sleeps for SLOW_MICROSECONDS. A program whose threads wait for each other
   then mostly waits, and run.py measures the processor time that it uses meanwhile. */

#define _GNU_SOURCE
#include <stdlib.h>
#include <time.h>

/* The C library's own functions, under names that this object does not replace. */
extern void *__libc_malloc(size_t);
extern void *__libc_realloc(void *, size_t);

static struct timespec pause_of_a_growth;

__attribute__((constructor)) static void start(void)
{
    const char *number = getenv("SLOW_MICROSECONDS");
    long microseconds = number == NULL ? 0 : atol(number);
    pause_of_a_growth.tv_sec = microseconds / 1000000;
    pause_of_a_growth.tv_nsec = microseconds % 1000000 * 1000;
}

static void sleep_first(void)
{
    if (pause_of_a_growth.tv_sec > 0 || pause_of_a_growth.tv_nsec > 0)
        nanosleep(&pause_of_a_growth, NULL);
}

void *malloc(size_t size)
{
    sleep_first();
    return __libc_malloc(size);
}

void *realloc(void *memory, size_t size)
{
    sleep_first();
    return __libc_realloc(memory, size);
}
