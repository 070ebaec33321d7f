/* A socket for each of some users, in a directory that only this user may search. The directory
 * belongs to this process until the server listens, so no one else changes what is in it. */
#ifndef USERS_H
#define USERS_H

#include <stdbool.h>
#include <stddef.h>
#include <sys/types.h>

#include "options.h"

enum { MOST_USERS = 64 };

struct user {
    char *name;
    char *socket; /* its path */
    uid_t uid;
    gid_t gid;
    int directory; /* -1: it is not there yet */
};

struct users {
    const char *run; /* the directory of their directories, or NULL: there are no users */
    int parent;      /* its descriptor, once it is open */
    size_t count;
    struct user all[MOST_USERS];
};

/* Takes --users and --run out of the options of the server, and adds --as for each user. Without
 * --users the users are those of SYSVMSG_USERS. If that fails, `why` says so. */
bool users_take(char ***options, struct users *users, char why[WHY_BYTES]);

/* Makes the directories, or takes those of an earlier run. If that fails, `why` says so. */
bool users_make(struct users *users, char why[WHY_BYTES]);

/* Gives each user the directory and the socket. The server listens by now. */
void users_give(const struct users *users);

/* Removes the directories. One that is not empty is left to its user. */
void users_remove(const struct users *users);

/* The socket of this process's user, or NULL. */
const char *users_own(const struct users *users);

#endif
