/* usage: measure INPUT OUTPUT PROGRAM [WORD..]

   Runs the program with standard input from the file INPUT and standard output to the file OUTPUT. Prints four numbers:
   the exit status (if a signal ended the program, 128 plus the number of the signal), the CPU time in microseconds, the
   peak memory in KiB, and the elapsed time in microseconds. A program that uses more than 600 seconds of CPU time is
   ended.

   The peak memory of a new process begins with that of the process that started it. That of python3 would be larger than
   the memory that is measured here, but that of this program is small. */

#define _GNU_SOURCE
#include <fcntl.h>
#include <stdio.h>
#include <stdlib.h>
#include <sys/resource.h>
#include <sys/wait.h>
#include <time.h>
#include <unistd.h>

enum { MOST_SECONDS = 600 };

static void fail(const char *what)
{
    perror(what);
    exit(2);
}

/* Opens the file at this path as this descriptor. Called in the new process. */
static void put_at(int descriptor, const char *path, int flags)
{
    int file = open(path, flags, 0666);
    if (file < 0 || dup2(file, descriptor) < 0)
        fail(path);
    close(file);
}

static long long microseconds(struct timeval time)
{
    return time.tv_sec * 1000000LL + time.tv_usec;
}

/* Returns the time of a clock that never runs backwards, in microseconds. */
static long long now(void)
{
    struct timespec time;
    if (clock_gettime(CLOCK_MONOTONIC, &time) < 0)
        fail("clock_gettime");
    return time.tv_sec * 1000000LL + time.tv_nsec / 1000;
}

int main(int count, char **words)
{
    if (count < 4) {
        fputs("usage: measure INPUT OUTPUT PROGRAM [WORD..]\n", stderr);
        return 2;
    }
    long long begun = now();
    pid_t child = fork();
    if (child < 0)
        fail("fork");
    if (child == 0) {
        struct rlimit limit = { MOST_SECONDS, MOST_SECONDS + 1 };
        if (setrlimit(RLIMIT_CPU, &limit) < 0)
            fail("setrlimit");
        put_at(STDIN_FILENO, words[1], O_RDONLY);
        put_at(STDOUT_FILENO, words[2], O_WRONLY | O_CREAT | O_TRUNC);
        execv(words[3], words + 3);
        fail(words[3]);
    }
    int status;
    struct rusage used;
    if (wait4(child, &status, 0, &used) != child)
        fail("wait4");
    printf("%d %lld %ld %lld\n", WIFEXITED(status) ? WEXITSTATUS(status) : 128 + WTERMSIG(status),
           microseconds(used.ru_utime) + microseconds(used.ru_stime), used.ru_maxrss, now() - begun);
    return 0;
}
