/* A sender and a receiver whose calls are interrupted by signals all the time.
 *   interrupted MICROSECONDS SECONDS
 * Each of the two processes has a timer of so many microseconds whose signals it handles, one with
 * SA_RESTART and one without. The messages are numbered, and a call that fails with EINTR is made
 * again. So each message that is sent twice, lost or out of order is seen. Both pause from time to
 * time, so that the other one waits longer than a timer's period. After so many seconds it prints
 * what happened, and ends with status 0 if every message was received once and in order, waits did
 * end with EINTR, and none of these took long. */
#define _GNU_SOURCE
#include <errno.h>
#include <signal.h>
#include <stdbool.h>
#include <stdio.h>
#include <stdlib.h>
#include <sys/mman.h>
#include <sys/msg.h>
#include <sys/time.h>
#include <sys/wait.h>
#include <time.h>
#include <unistd.h>

enum {
    NUMBERED = 1,
    LAST = 2,            /* the type of the message after all others */
    PAUSE_EVERY = 50000, /* messages */
    PAUSE = 600,         /* milliseconds */
    /* How long a call may take that fails with EINTR, if other programs run beside it. */
    LONGEST = 2000,
};

struct message {
    long type;
    long number;
};

/* What a process tells of itself. */
struct told {
    long messages, signals, interruptions, longest;
    const char *wrong;
};

static struct told *all; /* of the sender and the receiver */
static struct told *mine;
static int queue;

static long milliseconds(void)
{
    struct timespec now;
    clock_gettime(CLOCK_MONOTONIC, &now);
    return now.tv_sec * 1000L + now.tv_nsec / 1000000L;
}

static void handle(int number) { mine->signals += number == SIGALRM; }

static void start_timer(long microseconds, int flags)
{
    sigaction(SIGALRM, &(struct sigaction){.sa_handler = handle, .sa_flags = flags}, NULL);
    struct timeval period = {microseconds / 1000000, microseconds % 1000000};
    setitimer(ITIMER_REAL, &(struct itimerval){period, period}, NULL);
}

/* Signals end each sleep. */
static void pause_for(long duration)
{
    long end = milliseconds() + duration;
    while (milliseconds() < end)
        usleep(1000);
}

static ssize_t call_once(bool sends, struct message *message)
{
    if (sends)
        return msgsnd(queue, message, sizeof message->number, 0);
    return msgrcv(queue, message, sizeof message->number, 0, 0);
}

/* Makes a call until no signal ends it. Returns whether it succeeds then. */
static bool call(bool sends, struct message *message)
{
    for (;;) {
        long start = milliseconds();
        ssize_t got = call_once(sends, message);
        if (got >= 0 || errno != EINTR)
            return got >= 0;
        long took = milliseconds() - start;
        mine->interruptions++;
        mine->longest = took > mine->longest ? took : mine->longest;
    }
}

static const char *send_all(long end)
{
    for (long i = 0; milliseconds() < end; i++) {
        if (i % PAUSE_EVERY == 0)
            pause_for(PAUSE);
        if (!call(true, &(struct message){NUMBERED, i}))
            return "a send failed";
        mine->messages++;
    }
    return call(true, &(struct message){LAST, 0}) ? NULL : "the last send failed";
}

static const char *receive_all(void)
{
    struct message in;
    while (call(false, &in)) {
        if (in.type == LAST)
            return NULL;
        if (in.number != mine->messages)
            return in.number < mine->messages ? "a message was received twice" : "one was lost";
        if (mine->messages++ % PAUSE_EVERY == 0)
            pause_for(PAUSE);
    }
    return "a receive failed";
}

static pid_t start(bool sends, long microseconds, long seconds)
{
    pid_t child = fork();
    if (child != 0)
        return child;
    mine = &all[sends];
    start_timer(microseconds, sends ? SA_RESTART : 0);
    mine->wrong = sends ? send_all(milliseconds() + seconds * 1000) : receive_all();
    if (!mine->wrong)
        exit(0);
    perror(mine->wrong);
    msgctl(queue, IPC_RMID, NULL); /* ends the other process */
    exit(1);
}

static bool is_right(const char *who, const struct told *told)
{
    printf(
        "the %s: %ld messages, %ld signals, %ld calls failed with EINTR, the longest in %ld ms\n",
        who, told->messages, told->signals, told->interruptions, told->longest);
    return !told->wrong && told->interruptions > 0 && told->longest < LONGEST;
}

int main(int count, char **words)
{
    int status = 1, other_status = 1;
    if (count != 3)
        return 2;
    long microseconds = atol(words[1]), seconds = atol(words[2]);
    all = mmap(NULL, 2 * sizeof *all, PROT_READ | PROT_WRITE, MAP_SHARED | MAP_ANONYMOUS, -1, 0);
    queue = msgget(IPC_PRIVATE, 0600);
    if (queue < 0 || all == MAP_FAILED)
        return 1;
    pid_t receiver = start(false, microseconds, seconds),
          sender = start(true, microseconds, seconds);
    waitpid(sender, &other_status, 0);
    waitpid(receiver, &status, 0);
    struct msqid_ds left = {.msg_qnum = 1};
    msgctl(queue, IPC_STAT, &left);
    msgctl(queue, IPC_RMID, NULL);
    bool received = is_right("receiver", &all[false]), sent = is_right("sender", &all[true]);
    bool same = all[false].messages == all[true].messages && left.msg_qnum == 0;
    return !(received && sent && same && status == 0 && other_status == 0);
}
