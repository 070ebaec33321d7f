/* The library for clients in C. Sessions, frames and requests are those of the preload library. */
#include "sysvmsg.h"

#include <errno.h>
#include <limits.h>
#include <stdlib.h>
#include <string.h>

#include "caller_memory.h"
#include "connection.h"
#include "frames.h"
#include "requests.h"

#define EXPORTED __attribute__((visibility("default")))

enum {
    NOWAIT_FLAG = 2048,
    BACK_MS = 100 /* how long a message that is given back waits for room before its session ends */
};

struct sysvmsg {
    struct peer peer;
    struct connection *connection;
};

_Static_assert((int)SYSVMSG_ANSWERED == (int)ANSWERED && (int)SYSVMSG_NOT_MADE == (int)NOT_MADE
                   && (int)SYSVMSG_UNKNOWN == (int)UNKNOWN,
    "the same outcomes");
_Static_assert((int)SYSVMSG_BODY_MAX == (int)TEXT_MAX, "the longest message");
_Static_assert(sizeof(struct sysvmsg_stat) == sizeof(struct queue_stat), "the same fields");
_Static_assert(sizeof(struct sysvmsg_set) == sizeof(struct queue_set), "the same fields");

/* Returns 0, or -1 with errno set. */
static int outcome(int error)
{
    if (error == 0)
        return 0;
    errno = error;
    return -1;
}

/* Opens a connection for such a peer, whose path is still missing. Returns NULL with errno set if
 * that fails. */
static struct sysvmsg *opened(
    const struct peer *peer, const char *path, int milliseconds, bool retries)
{
    struct sysvmsg *server = calloc(1, sizeof *server);
    if (!server)
        return NULL;
    server->peer = *peer;
    int error = !path ? EFAULT : peer_set_path(&server->peer, path) ? 0 : ENAMETOOLONG;
    if (error == 0)
        error = connection_open(&server->peer, milliseconds, retries, &server->connection);
    if (error == 0)
        return server;
    free(server);
    errno = error;
    return NULL;
}

static const struct peer plain = {.ends_by_signals = true};
static const struct peer holding = {.ends_by_signals = true, .can_hold = true};

EXPORTED struct sysvmsg *sysvmsg_open(const char *path, int milliseconds)
{
    return opened(&plain, path, milliseconds, false);
}

EXPORTED struct sysvmsg *sysvmsg_open_holding(const char *path, int milliseconds)
{
    return opened(&holding, path, milliseconds, false);
}

EXPORTED struct sysvmsg *sysvmsg_open_retry(const char *path, int milliseconds)
{
    return opened(&plain, path, milliseconds, true);
}

EXPORTED struct sysvmsg *sysvmsg_open_holding_retry(const char *path, int milliseconds)
{
    return opened(&holding, path, milliseconds, true);
}

EXPORTED struct sysvmsg *sysvmsg_open_as(
    const char *path, uid_t user, gid_t group, int milliseconds)
{
    const struct peer peer = {
        .ends_by_signals = true, .states_ids = true, .user = user, .group = group};
    return opened(&peer, path, milliseconds, false);
}

EXPORTED void sysvmsg_close(struct sysvmsg *server)
{
    if (!server)
        return;
    connection_close(server->connection);
    free(server);
}

EXPORTED int sysvmsg_slots(const struct sysvmsg *server)
{
    return server ? connection_slots(server->connection) : outcome(EFAULT);
}

EXPORTED const char *sysvmsg_reason(const struct sysvmsg *server)
{
    const char *why = server ? connection_why(server->connection) : NULL;
    return why ? why : "";
}

EXPORTED int sysvmsg_unknown(const struct sysvmsg *server)
{
    return server ? connection_was_sent(server->connection) : outcome(EFAULT);
}

EXPORTED int sysvmsg_outcome(void) { return (int)connection_outcome(); }

EXPORTED int sysvmsg_retry(struct sysvmsg *server, int milliseconds)
{
    return outcome(server ? connection_retry(server->connection, milliseconds) : EFAULT);
}

EXPORTED int sysvmsg_get(struct sysvmsg *server, int key, int flags)
{
    int id = -1;
    connection_begin_call();
    if (!server)
        return outcome(EFAULT);
    int error = request_get(server->connection, key, flags, &id);
    return error ? outcome(error) : id;
}

/* The flag of a call that does not wait. */
static int wait_flag(int milliseconds) { return milliseconds == SYSVMSG_NOWAIT ? NOWAIT_FLAG : 0; }

EXPORTED int sysvmsg_snd(
    struct sysvmsg *server, int queue, const void *message, size_t size, int milliseconds)
{
    int64_t type;
    connection_begin_call();
    if (size > TEXT_MAX)
        return outcome(EINVAL);
    if (!server || !is_readable(message))
        return outcome(EFAULT);
    memcpy(&type, message, sizeof type);
    return outcome(request_snd(server->connection, queue, type, (const char *)message + sizeof type,
        size, wait_flag(milliseconds), milliseconds));
}

EXPORTED ssize_t sysvmsg_rcv(struct sysvmsg *server, int queue, void *message, size_t size,
    int64_t type, int flags, int milliseconds)
{
    size_t got;
    connection_begin_call();
    /* (a message that has no place is not taken) */
    if (!server || !is_readable(message))
        return outcome(EFAULT);
    flags = (flags & (SYSVMSG_NOERROR | SYSVMSG_EXCEPT)) | wait_flag(milliseconds);
    int error = request_rcv(server->connection, queue, message, size < TEXT_MAX ? size : TEXT_MAX,
        type, flags, milliseconds, &got);
    return error ? outcome(error) : (ssize_t)got;
}

EXPORTED ssize_t sysvmsg_hold(struct sysvmsg *server, int queue, void *message, size_t size,
    int64_t type, int flags, int milliseconds)
{
    return sysvmsg_hold_for(server, queue, message, size, type, flags, milliseconds, 0);
}

EXPORTED ssize_t sysvmsg_hold_for(struct sysvmsg *server, int queue, void *message, size_t size,
    int64_t type, int flags, int milliseconds, uint32_t seconds)
{
    size_t got;
    connection_begin_call();
    if (!server || !is_readable(message))
        return outcome(EFAULT);
    /* (the server refuses SYSVMSG_NOERROR) */
    flags = (flags & (SYSVMSG_NOERROR | SYSVMSG_EXCEPT)) | wait_flag(milliseconds);
    int error = request_hold(server->connection, queue, message, size < TEXT_MAX ? size : TEXT_MAX,
        type, flags, milliseconds, seconds, &got);
    return error ? outcome(error) : (ssize_t)got;
}

EXPORTED int sysvmsg_done(struct sysvmsg *server)
{
    connection_begin_call();
    if (!server)
        return outcome(EFAULT);
    if (server->peer.can_hold && !connection_is_holding(server->connection))
        return outcome(EINVAL);
    return outcome(request_done(server->connection));
}

EXPORTED int sysvmsg_back(struct sysvmsg *server)
{
    connection_begin_call();
    if (!server)
        return outcome(EFAULT);
    if (!connection_is_holding(server->connection))
        return outcome(EINVAL);
    int error = request_back(server->connection, BACK_MS);
    /* (the session has ended, so the server gives the message back once there is room) */
    return error == ETIMEDOUT || error == EINTR ? 0 : outcome(error);
}

EXPORTED int sysvmsg_stat(struct sysvmsg *server, int queue, struct sysvmsg_stat *stat)
{
    struct queue_stat found;
    connection_begin_call();
    if (!server)
        return outcome(EFAULT);
    int error = request_stat(server->connection, queue, &found);
    if (error != 0)
        return outcome(error);
    struct sysvmsg_stat shown = {found.key, found.uid, found.gid, found.cuid, found.cgid,
        found.mode, found.cbytes, found.qnum, found.qbytes, found.lspid, found.lrpid, found.stime,
        found.rtime, found.ctime};
    return outcome(copy_to_caller(stat, &(struct iovec){&shown, sizeof shown}, 1));
}

EXPORTED int sysvmsg_set(struct sysvmsg *server, int queue, const struct sysvmsg_set *set)
{
    struct sysvmsg_set given;
    connection_begin_call();
    if (!server)
        return outcome(EFAULT);
    int error = copy_from_caller(&(struct iovec){&given, sizeof given}, 1, set);
    if (error != 0)
        return outcome(error);
    struct queue_set wanted = {given.uid, given.gid, given.mode, given.qbytes};
    return outcome(request_set(server->connection, queue, &wanted));
}

EXPORTED int sysvmsg_rm(struct sysvmsg *server, int queue)
{
    connection_begin_call();
    return outcome(server ? request_rm(server->connection, queue) : EFAULT);
}

EXPORTED int sysvmsg_row(struct sysvmsg *server, int slot, struct sysvmsg_row *row)
{
    struct queue_row found;
    connection_begin_call();
    if (!server)
        return outcome(EFAULT);
    int error = request_row(server->connection, slot, &found);
    if (error != 0)
        return outcome(error);
    if (!found.present)
        return 0;
    struct sysvmsg_row shown = {
        found.id, found.key, found.uid, found.mode, found.cbytes, found.qnum};
    error = copy_to_caller(row, &(struct iovec){&shown, sizeof shown}, 1);
    return error ? outcome(error) : 1;
}
