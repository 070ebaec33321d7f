/* A client of sysvmsg servers: System V message queues over a Unix socket.
 *
 * Calls return -1 and set errno if they fail: EFAULT if the memory of an argument is missing, or
 * the connection is NULL. Link with -lsysvmsg -pthread. libsysvmsg(3) has an example. */
#ifndef SYSVMSG_H
#define SYSVMSG_H

#include <stddef.h>
#include <stdint.h>
#include <sys/types.h>

#ifdef __cplusplus
extern "C" {
#endif

/* Flags. They are those of <sys/ipc.h> and <sys/msg.h>; a get also takes a mode of nine bits. */
enum {
    SYSVMSG_CREAT = 01000,
    SYSVMSG_EXCL = 02000,
    SYSVMSG_NOERROR = 010000,
    SYSVMSG_EXCEPT = 020000,
};

enum {
    SYSVMSG_PRIVATE = 0,     /* the key of a queue that no other call finds */
    SYSVMSG_BODY_MAX = 8192, /* the longest message */
    SYSVMSG_NO_LIMIT = -1,   /* a call waits as long as it takes */
    SYSVMSG_NOWAIT = 0,      /* it does not wait, and fails with EAGAIN or ENOMSG at once */
};

/* What became of a call. */
enum {
    SYSVMSG_ANSWERED = 0, /* the server replied */
    SYSVMSG_NOT_MADE = 1, /* it did nothing, and can be made again */
    SYSVMSG_UNKNOWN = 2,  /* it took effect, or did nothing */
};

/* A message: a type above 0, and a body. A program may use a struct with a shorter body. */
struct sysvmsg_message {
    int64_t type;
    char body[SYSVMSG_BODY_MAX];
};

/* The attributes of a queue. The times of a server are 0. */
struct sysvmsg_stat {
    int32_t key;
    uint32_t uid, gid, cuid, cgid, mode, cbytes, qnum, qbytes, lspid, lrpid;
    uint64_t stime, rtime, ctime;
};

struct sysvmsg_set {
    uint32_t uid, gid, mode, qbytes;
};

/* A queue as the server's table shows it, to anybody. */
struct sysvmsg_row {
    int id;
    int32_t key;
    uint32_t uid, mode, cbytes, qnum;
};

/* A connection to a server. Threads may use one at the same time: each that finds it in use makes
 * its call over a connection of its own, which costs more. A child of fork may use it too, over a
 * session of its own. */
struct sysvmsg;

/* Connects to the server at a path, as this process's effective user and group, within a number of
 * milliseconds or SYSVMSG_NO_LIMIT. Returns NULL and sets errno to that of the connect, to
 * EFAULT, ENAMETOOLONG, EMFILE if the process has 1,024 connections, ETIMEDOUT, or EIO if the
 * server sent no valid reply. */
struct sysvmsg *sysvmsg_open(const char *path, int milliseconds);

/* The same, as another user and group. The server does not check them. */
struct sysvmsg *sysvmsg_open_as(const char *path, uid_t user, gid_t group, int milliseconds);

/* As sysvmsg_open, for a connection that can hold messages. EPROTONOSUPPORT: the server lets
 * clients hold no messages, which it does with --hold. */
struct sysvmsg *sysvmsg_open_holding(const char *path, int milliseconds);

/* As sysvmsg_open and sysvmsg_open_holding. If no server listens at the path, they wait for one, as
 * sysvmsg_retry does. EINTR: a signal handler ran while they waited. */
struct sysvmsg *sysvmsg_open_retry(const char *path, int milliseconds);
struct sysvmsg *sysvmsg_open_holding_retry(const char *path, int milliseconds);

/* Ends the session. No thread may be in a call. A message that is held comes back. */
void sysvmsg_close(struct sysvmsg *server);

/* The number of queues that the server can have. */
int sysvmsg_slots(const struct sysvmsg *server);

/* Why the last call of this thread that failed with EIO did so: the session ended, or the server
 * sent no valid reply. The next call begins another session. No call is ever sent again by itself.
 */
const char *sysvmsg_reason(const struct sysvmsg *server);

/* Returns 1 if it is not known whether that call took effect, and 0 if it did nothing: the server
 * cannot have read the whole request. */
int sysvmsg_unknown(const struct sysvmsg *server);

/* What became of the last call of this thread, over any connection: SYSVMSG_ANSWERED,
 * SYSVMSG_NOT_MADE or SYSVMSG_UNKNOWN. The calls are those below, from sysvmsg_get on. */
int sysvmsg_outcome(void);

/* Ends the session, and begins another one. If no server listens, it waits for one, at most that
 * many milliseconds. Fails with the errors of sysvmsg_open, and with EBUSY if another thread is in
 * a call. A message that is held comes back. If the server was restarted, its queues have to be
 * found again: their identifiers may be those of other queues. */
int sysvmsg_retry(struct sysvmsg *server, int milliseconds);

/* Returns the identifier of the queue of a key. */
int sysvmsg_get(struct sysvmsg *server, int key, int flags);

/* Sends a message: a struct sysvmsg_message, or one like it, with a body of `size` bytes. It waits
 * for room, at most that many milliseconds. ETIMEDOUT: the time was over; EINTR: a signal handler
 * ran. A call that fails with one of these sent nothing. */
int sysvmsg_snd(
    struct sysvmsg *server, int queue, const void *message, size_t size, int milliseconds);

/* Receives a message with a body of at most `size` bytes, and returns its length: the first one of
 * any type for 0, of this type if it is above 0, of the lowest type that is at most N for -N. Flags
 * are SYSVMSG_NOERROR and SYSVMSG_EXCEPT. It waits for a message, at most that many milliseconds.
 * ETIMEDOUT and EINTR are as above: a call that fails with one of them took nothing. */
ssize_t sysvmsg_rcv(struct sysvmsg *server, int queue, void *message, size_t size, int64_t type,
    int flags, int milliseconds);

/* Receives a message as sysvmsg_rcv does, and holds it: the server sends it again if the session
 * ends before sysvmsg_done. The flag is SYSVMSG_EXCEPT. It fails with EINVAL if a message is held,
 * with EACCES if the session may not send to the queue, with EAGAIN if the server has no place for
 * one more message that is held, with EBUSY if another thread is in a call, and with
 * EPROTONOSUPPORT if sysvmsg_open_holding has not opened the connection. The session also ends if
 * the process changes its effective user or group. */
ssize_t sysvmsg_hold(struct sysvmsg *server, int queue, void *message, size_t size, int64_t type,
    int flags, int milliseconds);

/* The same, for that many seconds at most, or without a limit for 0. If the message is not done
 * with by then, the server sends it again, and the session goes on and holds nothing: sysvmsg_done
 * and sysvmsg_back fail with EINVAL. */
ssize_t sysvmsg_hold_for(struct sysvmsg *server, int queue, void *message, size_t size,
    int64_t type, int flags, int milliseconds, uint32_t seconds);

/* The message that is held is done with, and gone. It fails with EINVAL if none is held, as after
 * the seconds of sysvmsg_hold_for: then another client may receive the message. After EIO it may
 * have come back. */
int sysvmsg_done(struct sysvmsg *server);

/* Gives back the message that is held: the server sends it again, as the last one of its queue. If
 * the queue has no room for 100 milliseconds, or a signal handler runs, the session ends, and the
 * server sends the message once there is room. It fails with EINVAL if none is held, as after the
 * seconds of sysvmsg_hold_for. EINVAL and EIDRM, if the queue was removed, and EACCES, if the
 * session may no longer send to it: the message is gone. After EIO it comes back, unless the server
 * has ended. */
int sysvmsg_back(struct sysvmsg *server);

int sysvmsg_stat(struct sysvmsg *server, int queue, struct sysvmsg_stat *stat);
int sysvmsg_set(struct sysvmsg *server, int queue, const struct sysvmsg_set *set);
int sysvmsg_rm(struct sysvmsg *server, int queue);

/* Returns 1 and the queue of a slot, or 0 if the slot has none. */
int sysvmsg_row(struct sysvmsg *server, int slot, struct sysvmsg_row *row);

#ifdef __cplusplus
}
#endif

#endif
