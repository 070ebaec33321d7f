#define _GNU_SOURCE
#include "run.h"

#include <errno.h>
#include <limits.h>
#include <poll.h>
#include <signal.h>
#include <stdio.h>
#include <stdlib.h>
#include <string.h>
#include <sys/eventfd.h>
#include <sys/signalfd.h>
#include <unistd.h>

#include "slot.h"

enum {
    POKE = SIGUSR1, /* ends a call that waits */
    POKE_MS = 20,   /* between two of them: one may come before the call */
    APART_MS = 200  /* signals that are closer together are one */
};

struct run {
    struct work work;
    struct slot *slots;
    int count; /* of the slots that were started */
    int signals;
    long first, second; /* when these signals came, in milliseconds; 0: not yet */
};

static _Noreturn void give_up(const char *what)
{
    fprintf(stderr, "sysvmsg-work: %s: %s\n", what, strerror(errno));
    exit(FAILED);
}

static void take_poke(int number) { (void)number; }

/* Blocks a signal unless it is ignored, as SIGINT is in a background job of a script. */
static void add_unless_ignored(sigset_t *set, int number)
{
    struct sigaction found;
    if (sigaction(number, NULL, &found) == 0 && found.sa_handler != SIG_IGN)
        sigaddset(set, number);
}

/* Takes signals from a descriptor from now on, also those to the threads that start later. */
static void begin_signals(struct run *run)
{
    static const struct sigaction poke = {.sa_handler = take_poke};
    static const struct sigaction ignore = {.sa_handler = SIG_IGN};
    sigset_t taken;
    sigemptyset(&taken);
    sigaddset(&taken, SIGTERM);
    add_unless_ignored(&taken, SIGINT);
    sigprocmask(SIG_BLOCK, &taken, &run->work.before.mask);
    sigaction(SIGPIPE, &ignore, &run->work.before.broken_pipe);
    sigaction(POKE, &poke, NULL);
    signal(SIGCHLD, SIG_DFL);
    run->signals = signalfd(-1, &taken, SFD_CLOEXEC);
    run->work.ended = eventfd(0, EFD_CLOEXEC | EFD_NONBLOCK);
    if (run->signals < 0 || run->work.ended < 0)
        give_up("signalfd");
}

/* The first signal lets the commands end, and a second one gives their messages back. */
static void take_signal(struct run *run)
{
    struct signalfd_siginfo signal;
    if (read(run->signals, &signal, sizeof signal) != sizeof signal)
        return;
    long now = milliseconds();
    if (run->first == 0) {
        int works = WORKS;
        run->first = now;
        atomic_compare_exchange_strong(&run->work.stage, &works, FINISHES);
    } else if (run->second == 0 && now - run->first >= APART_MS) {
        run->second = now;
        run->work.stage = GIVES_BACK;
        run->work.status = BY_SIGNAL + (int)signal.ssi_signo;
    }
}

/* Has the slots notice the stage, and their commands if it is the last one. */
static void tell_slots(struct run *run)
{
    int number = milliseconds() - run->second < KILL_MS ? SIGTERM : SIGKILL;
    for (int i = 0; i < run->count; i++) {
        pthread_kill(run->slots[i].thread, POKE);
        if (run->work.stage == GIVES_BACK)
            slot_signal(&run->slots[i], number);
    }
}

/* Ends the commands whose time is over. Returns for how many milliseconds to wait after that; -1 is
 * no limit. */
static int end_late_commands(struct run *run)
{
    long now = milliseconds(), next = run->work.stage == WORKS ? LONG_MAX : now + POKE_MS;
    for (int i = 0; i < run->count; i++) {
        long due = slot_end_late(&run->slots[i], now);
        next = due < next ? due : next;
    }
    return next == LONG_MAX ? -1 : (int)(next - now);
}

/* Waits for something to happen, and takes it. */
static void step(struct run *run)
{
    uint64_t count;
    struct pollfd events[] = {
        {.fd = run->signals, .events = POLLIN}, {.fd = run->work.ended, .events = POLLIN}};
    poll(events, 2, end_late_commands(run));
    if (events[0].revents)
        take_signal(run);
    if (events[1].revents && read(run->work.ended, &count, sizeof count) < 0 && errno != EAGAIN)
        give_up("eventfd");
    if (run->work.stage != WORKS)
        tell_slots(run);
}

static void start_slots(struct run *run)
{
    while (run->count < run->work.options.jobs) {
        struct slot *slot = &run->slots[run->count];
        slot->work = &run->work;
        pthread_mutex_init(&slot->lock, NULL);
        atomic_fetch_add(&run->work.running, 1);
        errno = pthread_create(&slot->thread, NULL, slot_run, slot);
        if (errno != 0)
            give_up("a thread");
        run->count++;
    }
}

int run(const struct options *options)
{
    struct run run = {.work = {.options = *options}};
    run.slots = calloc((size_t)options->jobs, sizeof *run.slots);
    if (!run.slots)
        give_up("memory");
    begin_signals(&run);
    start_slots(&run);
    while (run.work.running > 0)
        step(&run);
    for (int i = 0; i < run.count; i++)
        pthread_join(run.slots[i].thread, NULL);
    free(run.slots);
    return run.work.status;
}
