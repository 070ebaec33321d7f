/* --state FILE: the queues of a server lie in FILE while it does not run. They are loaded before
 * the server serves anyone, and saved once its last session is over, at a socket that only this
 * process and what it starts can reach. FILE is FILE.loaded while the server runs. */
#ifndef STATE_H
#define STATE_H

#include <stdbool.h>
#include <sys/types.h>

#include "children.h"
#include "options.h"
#include "queues.h"

enum phase {
    STATE_OPENS,  /* the server has not opened its socket yet */
    STATE_LOADS,  /* the queues are being loaded */
    STATE_SERVES, /* they are loaded: at its end the server has to be saved */
    STATE_ENDS    /* the server ends, and nothing was loaded */
};

/* What became of a process that has ended. */
enum outcome {
    STATE_NOT_MINE,
    STATE_TAKEN, /* nothing has to be done */
    STATE_GOES,  /* all is loaded: the server may go on */
    STATE_FAILS  /* nothing is loaded, which was reported: the server has to end */
};

struct state {
    const char *file;    /* FILE, or NULL: there is no state */
    char *loaded, *next; /* FILE.loaded, FILE.new */
    char *folder;        /* FILE.run, of this process alone */
    char *door;          /* the socket that the server makes in it */
    char *socket;        /* that socket, once it was seen */
    int lock, parent;    /* descriptors of the folder, and of the directory of FILE */
    int news;            /* reports files in the folder */
    unsigned long blocks;
    enum phase phase;
    bool is_over;    /* the server has ended */
    bool is_told;    /* the server was told to end */
    pid_t child;     /* what loads or saves, or 0 */
    bool feeds;      /* it loads the rest */
    bool has_failed; /* something was lost, or not loaded */
    bool is_there;   /* FILE is there */
    struct parts parts;
    unsigned long
        rest_from;  /* the first line of the rest that is not loaded, or 0: there is none */
    unsigned wait;  /* the number of seconds until it is tried again */
    long feed_at;   /* when, in milliseconds */
    int told;       /* what the process that loads the rest prints */
    int saving;     /* a descriptor of FILE.new, or -1 */
    long save_at;   /* when a save that failed is tried again, in milliseconds */
    unsigned saves; /* that failed */
    bool is_saved;  /* the last one did not */
};

/* Takes --state out of the options of the server, and adds --alone. If that fails, `why` says so.
 */
bool state_take(char ***options, struct state *state, char why[WHY_BYTES]);

/* Takes FILE for this process, and looks into it. What earlier runs have left is put aside, and
 * reported. If that fails, `why` says so, and FILE is as it was. */
bool state_begin(struct state *state, char why[WHY_BYTES]);

/* The descriptor to poll, or -1 as long as a process runs that was started, and the number of
 * milliseconds after which there is something to do, or -1. */
int state_news(const struct state *state);
int state_limit(const struct state *state);

/* Does what there is to do: starts a process at the socket of the server, if that is there. */
enum outcome state_step(struct state *state, const struct signals *before);

/* A process has ended. */
enum outcome state_reap(struct state *state, pid_t child, int status);

/* The server was told to end, or ends at once. */
void state_stop(struct state *state);
void state_kill(struct state *state);

/* The server has ended: makes what was saved FILE, or reports what is lost. */
void state_end(struct state *state);

#endif
