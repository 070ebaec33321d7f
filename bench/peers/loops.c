/* A minimal server and its clients, to compare two ways to wait for requests:
 *   loops WAY CLIENTS MILLISECONDS
 * WAY is threads (a thread per client, which waits in its read) or loops (four threads, each of which waits in an epoll
 * for a fourth of the clients). Each client is a process with a socket pair. It writes 86 bytes and waits in its read
 * for as many, over and over. It prints the requests per second of all clients.
 */
#define _GNU_SOURCE
#include <pthread.h>
#include <signal.h>
#include <stdatomic.h>
#include <stdio.h>
#include <stdlib.h>
#include <string.h>
#include <sys/epoll.h>
#include <sys/mman.h>
#include <sys/prctl.h>
#include <sys/socket.h>
#include <time.h>
#include <unistd.h>

#define FRAME 86
#define MOST 512
#define LOOPS 4
#define EVENTS 256

/* The requests that a client has made, on a cache line of its own. */
struct count {
    _Alignas(64) atomic_long requests;
};

static int clients;
static int ends[MOST][2];

static void fail(const char *what)
{
    perror(what);
    exit(1);
}

static long now(void)
{
    struct timespec time;
    clock_gettime(CLOCK_MONOTONIC, &time);
    return time.tv_sec * 1000000000L + time.tv_nsec;
}

/* Answers what has come from a client, if anything has. */
static int answer(int fd, int flags)
{
    char bytes[4096];
    ssize_t count = recv(fd, bytes, sizeof bytes, flags);
    return count > 0 && send(fd, bytes, (size_t)count, MSG_NOSIGNAL) == count;
}

static void *serve_one(void *client)
{
    while (answer(ends[(long)client][0], 0)) {
    }
    return NULL;
}

static void *serve_share(void *first)
{
    int watched = epoll_create1(0);
    if (watched < 0)
        fail("epoll_create1");
    for (int i = (int)(long)first; i < clients; i += LOOPS) {
        struct epoll_event event = {.events = EPOLLIN | EPOLLRDHUP | EPOLLET, .data.fd = ends[i][0]};
        if (epoll_ctl(watched, EPOLL_CTL_ADD, ends[i][0], &event) != 0)
            fail("epoll_ctl");
    }
    struct epoll_event events[EVENTS];
    int count;
    while ((count = epoll_wait(watched, events, EVENTS, -1)) >= 0)
        for (int i = 0; i < count; i++)
            answer(events[i].data.fd, MSG_DONTWAIT);
    fail("epoll_wait");
    return NULL;
}

static void serve(const char *way)
{
    int is_threads = strcmp(way, "threads") == 0;
    int count = is_threads ? clients : LOOPS;
    for (long i = 0; i < count; i++) {
        pthread_t thread;
        if (pthread_create(&thread, NULL, is_threads ? serve_one : serve_share, (void *)i) != 0)
            fail("pthread_create");
    }
    for (;;)
        pause();
}

static void ask(int fd, struct count *count)
{
    char bytes[FRAME] = {0};
    while (send(fd, bytes, FRAME, MSG_NOSIGNAL) == FRAME && recv(fd, bytes, FRAME, MSG_WAITALL) == FRAME)
        atomic_fetch_add(&count->requests, 1);
    _exit(1);
}

static long sum(struct count *counts)
{
    long all = 0;
    for (int i = 0; i < clients; i++)
        all += atomic_load(&counts[i].requests);
    return all;
}

/* Starts a process that ends with this one. */
static int begins(void)
{
    pid_t child = fork();
    if (child < 0)
        fail("fork");
    if (child == 0)
        prctl(PR_SET_PDEATHSIG, SIGKILL);
    return child == 0;
}

int main(int argc, char **argv)
{
    clients = argc == 4 ? atoi(argv[2]) : 0;
    if (clients < 1 || clients > MOST) {
        fprintf(stderr, "loops: loops threads|loops CLIENTS MILLISECONDS\n");
        return 2;
    }
    struct count *counts = mmap(NULL, MOST * sizeof *counts, PROT_READ | PROT_WRITE, MAP_SHARED | MAP_ANONYMOUS, -1, 0);
    if (counts == MAP_FAILED)
        fail("mmap");
    for (int i = 0; i < clients; i++)
        if (socketpair(AF_UNIX, SOCK_STREAM, 0, ends[i]) != 0)
            fail("socketpair");
    if (begins())
        serve(argv[1]);
    for (int i = 0; i < clients; i++)
        if (begins())
            ask(ends[i][1], &counts[i]);
    usleep(200000);
    long start = now(), before = sum(counts);
    usleep((useconds_t)atoi(argv[3]) * 1000);
    long made = sum(counts) - before;
    printf("%.0f\n", (double)made * 1e9 / (double)(now() - start));
    return 0;
}
