/* A run of the server, from its start until it has ended and its socket is removed. */
#ifndef RUN_H
#define RUN_H

#include "state.h"
#include "users.h"

/* What the command line requests. */
struct request {
    const char *path;
    char **options; /* of the server */
    struct users users;
    struct state state;
    char **command; /* null: none */
};

/* The status if a command line was not understood: here, or by the server. */
enum { NOT_UNDERSTOOD = 2 };

/* Returns the status to exit with. It ends the process if it cannot begin. */
int run(struct request *request);

#endif
