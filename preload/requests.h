/* The requests of a session, and what their replies state. Each is made over a connection that was
 * opened, or over the thread's own for NULL, and returns 0 or the errno of the call. */
#ifndef REQUESTS_H
#define REQUESTS_H

#include <stdbool.h>
#include <stddef.h>
#include <stdint.h>

#include "connection.h"

struct queue_stat {
    int32_t key;
    uint32_t uid, gid, cuid, cgid, mode, cbytes, qnum, qbytes, lspid, lrpid;
    uint64_t stime, rtime, ctime;
};

struct queue_set {
    uint32_t uid, gid, mode, qbytes;
};

/* The queue of a slot, if there is one. */
struct queue_row {
    int slots; /* how many the server has */
    bool present;
    int id;
    int32_t key;
    uint32_t uid, mode, cbytes, qnum;
};

int request_get(struct connection *opened, int key, int flags, int *id);

/* Sends a message, whose body has at most TEXT_MAX bytes. The time is that of `ask`. */
int request_snd(struct connection *opened, int id, int64_t type, const void *body, size_t size,
    int flags, int milliseconds_at_most);

/* Receives a message into room for a type and `size` bytes, at most TEXT_MAX. */
int request_rcv(struct connection *opened, int id, void *message, size_t size, int64_t type,
    int flags, int milliseconds_at_most, size_t *got);

/* The same, and the session holds the message until it says that it is done, or ends, or for that
 * many seconds if they are not 0. It fails with EPROTONOSUPPORT if the connection cannot hold
 * messages, and with EBUSY if another thread uses it. */
int request_hold(struct connection *opened, int id, void *message, size_t size, int64_t type,
    int flags, int milliseconds_at_most, uint32_t seconds, size_t *got);

/* Fails with EINVAL if no message is held, and with EBUSY if another thread uses the connection. */
int request_done(struct connection *opened);

/* The same. The server sends the message again, and the call fails if that does. It waits for room;
 * if its wait ends early, the session ends, and the server then gives the message back. */
int request_back(struct connection *opened, int milliseconds_at_most);

int request_stat(struct connection *opened, int id, struct queue_stat *stat);
int request_set(struct connection *opened, int id, const struct queue_set *set);
int request_rm(struct connection *opened, int id);
int request_row(struct connection *opened, int slot, struct queue_row *row);

#endif
