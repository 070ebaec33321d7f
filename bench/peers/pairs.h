/* What the programs that measure pairs on queues of the system share. Each of them has its own own_pairs. */
#include <stdio.h>
#include <sys/wait.h>
#include <time.h>
#include <unistd.h>

/* Makes COUNT pairs of SIZE bytes on a queue of its own, and returns 0 if no call failed. */
static int own_pairs(size_t size, long count);

static long long now(void)
{
    struct timespec at;
    clock_gettime(CLOCK_MONOTONIC, &at);
    return at.tv_sec * 1000000000LL + at.tv_nsec;
}

/* Makes the pairs in that many processes, and prints the nanoseconds of all of them. */
static int pairs(size_t size, long count, long processes)
{
    int failed = 0;
    int status;
    long long start = now();
    for (long i = 1; i < processes; i++) {
        pid_t child = fork();
        if (child == 0)
            _exit(own_pairs(size, count));
        failed = failed || child < 0;
    }
    failed = own_pairs(size, count) || failed;
    while (wait(&status) > 0)
        failed = failed || status != 0;
    printf("%lld\n", now() - start);
    return failed;
}
