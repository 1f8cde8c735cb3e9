/* A shared object that is loaded into a program with LD_PRELOAD, and that disturbs the program's threads at random:

   - A thread that waits with the system call futex sometimes returns at once, as if another thread had woken it.
   - A thread that is about to wait, or to wake another thread, sometimes sleeps for up to 0.2 ms first.
   - A thread that allocates memory sometimes yields its processor to other threads first.

   All of this may happen on any system, so no program may depend on its absence.

   DISTURB_SEED   the seed of the pseudo-random numbers */

#define _GNU_SOURCE
#include <dlfcn.h>
#include <linux/futex.h>
#include <sched.h>
#include <stdarg.h>
#include <stdatomic.h>
#include <stdlib.h>
#include <sys/syscall.h>
#include <time.h>
#include <unistd.h>

enum { COMES_BACK = 8, SLEEPS = 16, YIELDS = 4, MOST_NANOSECONDS = 200000 };

/* The C library's own functions, under names that this object does not replace. */
extern void *__libc_malloc(size_t);
extern void *__libc_realloc(void *, size_t);

static long (*real_syscall)(long, ...);
static atomic_uint threads;
static unsigned seed;
static __thread unsigned state;

__attribute__((constructor)) static void start(void)
{
    const char *number = getenv("DISTURB_SEED");
    seed = number == NULL ? 0 : strtoul(number, NULL, 10);
    real_syscall = dlsym(RTLD_NEXT, "syscall");
    if (real_syscall == NULL)
        abort();
}

/* Returns a pseudo-random number below this bound. Each thread has a separate sequence of numbers. */
static unsigned below(unsigned bound)
{
    if (state == 0)
        state = (seed * 2654435761u + ++threads * 40503u) | 1;
    state ^= state << 13;
    state ^= state >> 17;
    state ^= state << 5;
    return state % bound;
}

static void sleep_now_and_then(void)
{
    if (below(SLEEPS) == 0) {
        struct timespec pause = { 0, below(MOST_NANOSECONDS) };
        nanosleep(&pause, NULL);
    }
}

long syscall(long number, ...)
{
    va_list words;
    va_start(words, number);
    long a = va_arg(words, long), b = va_arg(words, long), c = va_arg(words, long);
    long d = va_arg(words, long), e = va_arg(words, long), f = va_arg(words, long);
    va_end(words);
    if (number == SYS_futex) {
        int what = (int)b & FUTEX_CMD_MASK;
        if ((what == FUTEX_WAIT || what == FUTEX_WAIT_BITSET) && below(COMES_BACK) == 0)
            return 0;
        sleep_now_and_then();
    }
    return real_syscall(number, a, b, c, d, e, f);
}

void *malloc(size_t size)
{
    if (below(YIELDS) == 0)
        sched_yield();
    return __libc_malloc(size);
}

void *realloc(void *memory, size_t size)
{
    if (below(YIELDS) == 0)
        sched_yield();
    return __libc_realloc(memory, size);
}
