/* A shared object that is loaded into a program with LD_PRELOAD, and that refuses one growth of the program's memory or
   one start of a thread. One call of malloc, calloc, realloc, reallocarray, posix_memalign, aligned_alloc or mmap fails as
   if memory had run out, or one call of pthread_create fails as if the system had no thread left. The calls of all these
   functions are counted together, from 1. The count begins after this object's constructor, which the loader calls right
   before main, when the C library has started.

   REFUSE_AT       the number of the call to refuse; no call is refused if it is 0 or too large
   REFUSE_REPORT   a file; a line "counting" is appended to it at the start, and a line with the name of the refused call */

#define _GNU_SOURCE
#include <dlfcn.h>
#include <errno.h>
#include <fcntl.h>
#include <pthread.h>
#include <stdatomic.h>
#include <stdbool.h>
#include <stdlib.h>
#include <string.h>
#include <sys/mman.h>
#include <sys/syscall.h>
#include <unistd.h>

/* The C library's own functions, under names that this object does not replace. */
extern void *__libc_malloc(size_t);
extern void *__libc_calloc(size_t, size_t);
extern void *__libc_realloc(void *, size_t);
extern void *__libc_memalign(size_t, size_t);

typedef int create_thread(pthread_t *, const pthread_attr_t *, void *(*)(void *), void *);

static create_thread *real_pthread_create;
static atomic_bool counting;
static atomic_ullong calls;
static unsigned long long refused_call;

/* Appends a line to the file REFUSE_REPORT, without allocating memory. Aborts the program if that fails. */
static void report(const char *line)
{
    const char *path = getenv("REFUSE_REPORT");
    int file = path == NULL ? -1 : open(path, O_WRONLY | O_APPEND);
    ssize_t size = strlen(line);
    if (file < 0 || write(file, line, size) != size || close(file) < 0)
        abort();
}

__attribute__((constructor)) static void start(void)
{
    const char *number = getenv("REFUSE_AT");
    refused_call = number == NULL ? 0 : strtoull(number, NULL, 10);
    real_pthread_create = (create_thread *)dlsym(RTLD_NEXT, "pthread_create");
    if (real_pthread_create == NULL)
        abort();
    report("counting\n");
    counting = true;
}

/* Counts a call, and returns whether this call is to be refused. If it is, appends the line with its name to the file. */
static bool refused(const char *line)
{
    if (!counting || ++calls != refused_call)
        return false;
    report(line);
    errno = ENOMEM;
    return true;
}

void *malloc(size_t size)
{
    return refused("malloc\n") ? NULL : __libc_malloc(size);
}

void *calloc(size_t count, size_t size)
{
    return refused("calloc\n") ? NULL : __libc_calloc(count, size);
}

void *realloc(void *memory, size_t size)
{
    return refused("realloc\n") ? NULL : __libc_realloc(memory, size);
}

void *reallocarray(void *memory, size_t count, size_t size)
{
    size_t whole;
    if (refused("reallocarray\n"))
        return NULL;
    if (__builtin_mul_overflow(count, size, &whole)) {
        errno = ENOMEM;
        return NULL;
    }
    return __libc_realloc(memory, whole);
}

int posix_memalign(void **memory, size_t alignment, size_t size)
{
    if (alignment % sizeof(void *) != 0 || (alignment & (alignment - 1)) != 0 || alignment == 0)
        return EINVAL;
    void *taken = refused("posix_memalign\n") ? NULL : __libc_memalign(alignment, size);
    if (taken == NULL)
        return ENOMEM;
    *memory = taken;
    return 0;
}

void *aligned_alloc(size_t alignment, size_t size)
{
    return refused("aligned_alloc\n") ? NULL : __libc_memalign(alignment, size);
}

void *mmap(void *place, size_t size, int protection, int flags, int file, off_t offset)
{
    return refused("mmap\n") ? MAP_FAILED : (void *)syscall(SYS_mmap, place, size, protection, flags, file, offset);
}

void *mmap64(void *place, size_t size, int protection, int flags, int file, off64_t offset)
    __attribute__((alias("mmap")));

int pthread_create(pthread_t *thread, const pthread_attr_t *attributes, void *(*begin)(void *), void *given)
{
    return refused("pthread_create\n") ? EAGAIN : real_pthread_create(thread, attributes, begin, given);
}
