/* A slot does one job after another, on a thread and a connection of its own. */
#ifndef SLOT_H
#define SLOT_H

#include <pthread.h>
#include <stdatomic.h>
#include <stdbool.h>

#include "command.h"
#include "options.h"
#include "sysvmsg.h"

/* How far this process is to its end. */
enum stage {
    WORKS,     /* it takes messages */
    FINISHES,  /* it takes none, and lets the commands end */
    GIVES_BACK /* it ends the commands, and gives their messages back */
};

enum { KILL_MS = 5000 /* how long a command may take to end after SIGTERM */ };

enum { FAILED = 1, NOT_UNDERSTOOD = 2, NOT_EXECUTABLE = 126, NOT_FOUND = 127, BY_SIGNAL = 128 };

/* What the slots share. */
struct work {
    struct options options;
    struct signals before;
    atomic_int stage;
    atomic_int status;                             /* with which this process ends */
    atomic_int running;                            /* slots that have not ended */
    atomic_bool waits_for_server, waits_for_place; /* that was said */
    int ended; /* an eventfd, which reports that a slot has ended, or the stage changed */
};

struct slot {
    struct work *work;
    pthread_t thread;
    struct sysvmsg *server;
    int queue, failed;
    struct sysvmsg_message message;
    long due;             /* when the time of the message is over, in milliseconds; 0: never */
    pthread_mutex_t lock; /* of the rest, which another thread uses to end the command */
    pid_t command;        /* 0: none runs */
    bool is_told;         /* that it is to end */
    bool is_late;         /* it ran until the time of its message was over */
};

/* The function of the thread of a slot. */
void *slot_run(void *slot);

/* Has its command end by a signal. SIGTERM is sent once to each command. */
void slot_signal(struct slot *slot, int number);

/* Has its command end if the time of its message is over. Returns when to look again: in
 * milliseconds, of the clock that does not jump; LONG_MAX is never. */
long slot_end_late(struct slot *slot, long now);

/* That clock. */
long milliseconds(void);

#endif
