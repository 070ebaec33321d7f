/* The connections to servers: one for each thread of a program under sysvmsg-run, opened at its
 * first call and closed at its end; and those that a program opens itself. */
#ifndef CONNECTION_H
#define CONNECTION_H

#include <stdbool.h>
#include <sys/types.h>
#include <sys/un.h>

#include "frames.h"

struct connection;

/* A server, and what its sessions are to do. */
struct peer {
    struct sockaddr_un address; /* without a path if that is too long */
    bool ends_by_signals;       /* a handled signal ends a call that waits with EINTR */
    bool can_hold;              /* messages: the sessions have version 3 */
    bool states_ids;            /* the hello has these, and not the effective ones */
    uid_t user;
    gid_t group;
};

/* Returns false if the path is too long. */
bool peer_set_path(struct peer *peer, const char *path);

/* Whether SYSVMSG_PATH names a server. If it doesn't, the calls are the C library's own. */
bool has_server(void);

/* What became of a call: the server replied; it had no effect; or that is not known. */
enum outcome { ANSWERED, NOT_MADE, UNKNOWN };

/* Opens a connection, and begins its session within a time, or -1 for no limit. If it `retries`, it
 * waits for a server that does not listen yet. The peer must live as long. Returns 0, or an errno.
 */
int connection_open(
    const struct peer *peer, int milliseconds_at_most, bool retries, struct connection **opened);
void connection_close(struct connection *connection);
int connection_slots(const struct connection *connection);

/* Why the last call that failed with EIO did so, or NULL: that of this thread, if it made one. */
const char *connection_why(const struct connection *connection);

/* Whether it is not known if that call had an effect. */
bool connection_was_sent(const struct connection *connection);

/* A call of this thread begins. Until its request is sent it has no effect. */
void connection_begin_call(void);

/* What became of the last call of this thread over a connection that was opened. */
enum outcome connection_outcome(void);

/* Ends the session, and begins another one. Waits at most that long for a server that does not
 * listen yet; -1 is no limit. Returns 0, or an errno: EBUSY if another thread is in a call. */
int connection_retry(struct connection *connection, int milliseconds_at_most);

/* Whether the session holds a message, or held one whose time may be over. */
bool connection_is_holding(const struct connection *connection);

/* Sends a request and reads its reply into the same frame, over a connection that was opened, or
 * over the thread's own for NULL. Returns 0, or the errno of the call. A call that `may_wait` is a
 * cancellation point while it waits for its reply. If a signal handler runs meanwhile, it fails
 * with EINTR and has no effect, unless the peer's sessions go on waiting. If its time is over, it
 * fails with ETIMEDOUT and has no effect; -1 is no limit. Threads may use a connection at once:
 * each that finds it in use makes its call over one of its own; a hold, a done or a back fails with
 * EBUSY then. While a message is held, each other call that may wait is made over a connection of
 * its own: its end would be that of the session, which gives the message back. */
int ask(struct connection *opened, struct frame *frame, bool may_wait, int milliseconds_at_most);

#endif
