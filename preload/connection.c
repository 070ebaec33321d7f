#define _GNU_SOURCE
#include "connection.h"

#include <errno.h>
#include <fcntl.h>
#include <limits.h>
#include <linux/capability.h>
#include <poll.h>
#include <pthread.h>
#include <signal.h>
#include <stdatomic.h>
#include <stdlib.h>
#include <string.h>
#include <sys/resource.h>
#include <sys/socket.h>
#include <sys/stat.h>
#include <sys/syscall.h>
#include <sys/time.h>
#include <sys/uio.h>
#include <sys/un.h>
#include <time.h>
#include <unistd.h>

enum {
    CONNECTIONS = 1024,        /* threads that can keep one */
    HIGH_DESCRIPTOR = 900,     /* out of the way of programs that count or close theirs */
    REST_SECONDS = 10,         /* how long the rest of a reply may take that has begun */
    FIRST_MICROSECONDS = 2000, /* how long a single recv may wait for a reply */
    HELLO_MILLISECONDS = 250,  /* how long a call whose wait has ended still waits for its hello */
    LEAVE_SECONDS = 60,        /* how long it waits for the end of its session */
    FIRST_PAUSE = 20,          /* milliseconds between the first two tries to connect to a server */
    LONGEST_PAUSE = 500,       /* and between two later ones */
};

/* Tells whether a descriptor still is the file that it was. */
struct file {
    dev_t device;
    ino_t inode;
};

/* What tells a server from one that listened at the path before. */
struct listener {
    pid_t process;
    struct file socket;
};

/* The servers of a connection that was opened. */
struct servers {
    struct listener last; /* process -1: there was none */
    unsigned changes;     /* how often another server was found at the path */
    /* After a change, the queues that were found since: by their numbers modulo `places`, each with
     * the number of changes. */
    _Atomic uint64_t *found;
    unsigned places;
};

/* The connection of a thread, of a program that opened it, or of a single call. */
struct connection {
    atomic_bool taken;
    bool is_opened;     /* by connection_open */
    atomic_bool in_use; /* of one that was opened: a call uses it */
    atomic_bool holds;  /* its session has a message that is not done */
    const struct peer *peer;
    int fd; /* -1: it is not open */
    struct file file;
    uid_t user; /* of the hello */
    gid_t group;
    bool has_fixed_ids;      /* these two can't change any more */
    unsigned changes;        /* of the server before its session */
    struct servers servers;  /* of one that was opened */
    atomic_int slots;        /* of the reply to the hello */
    const char *_Atomic why; /* a call failed with EIO */
    atomic_bool was_sent;    /* the whole request of that call */
    int unconnected;         /* the errno for which no connection was made, or 0 */
};

/* How a call was made, and what has ended its wait. */
struct call {
    struct connection *opened; /* over which it is made, or NULL */
    pid_t process;             /* in which it began */
    bool may_wait, ends_by_signals;
    int cancel_state; /* while it waits */
    long deadline;    /* of its wait; 0: there is none */
    int ended_by;     /* EINTR: a signal handler; ETIMEDOUT: the deadline; 0: nothing */
    bool has_no_end;  /* the call was left, and its session did not end */
    enum outcome outcome;
    const char *why; /* it failed with EIO */
};

/* The connections of all threads, so that a child of fork can close its copies of them. */
static struct connection connections[CONNECTIONS];
static __thread struct connection *own_connection __attribute__((tls_model("initial-exec")));
/* Whether a call of this thread uses that connection. */
static __thread volatile sig_atomic_t current_call __attribute__((tls_model("initial-exec")));

/* The last calls of this thread over connections that were opened. */
static __thread struct {
    enum outcome outcome;            /* of the last one */
    const struct connection *failed; /* over which the last one failed with EIO */
    enum outcome failed_outcome;
    const char *why;
} last __attribute__((tls_model("initial-exec")));

/* What is known from the start of the process on. */
static struct {
    bool has_server;        /* SYSVMSG_PATH names one */
    bool keeps_connections; /* after a call */
    bool has_standard_error;
} settings;

static pthread_once_t process_start = PTHREAD_ONCE_INIT;
static pthread_key_t thread_end;
static pid_t process; /* the process whose connections these are */
static struct peer server = {.address = {.sun_family = AF_UNIX}};

/* Standard error as it was when the library was loaded, if it was open. */
static struct file standard_error;

/* Held while a descriptor is opened or closed and `connections` is told. fork waits for it, so that
 * its child finds all its copies there. Signals are blocked meanwhile: a handler may fork. */
static pthread_mutex_t descriptor_lock = PTHREAD_MUTEX_INITIALIZER;

struct hold {
    bool is_held;
    sigset_t mask; /* before it */
};

static __thread struct hold fork_hold __attribute__((tls_model("initial-exec")));

bool peer_set_path(struct peer *peer, const char *path)
{
    peer->address = (struct sockaddr_un){.sun_family = AF_UNIX};
    if (strlen(path) >= sizeof peer->address.sun_path)
        return false;
    strcpy(peer->address.sun_path, path);
    return true;
}

/* A child that was made without the handlers of fork doesn't hold. It closes no copies, and a
 * thread that it doesn't have may have held when it was made. */
static struct hold hold_descriptors(void)
{
    struct hold hold = {.is_held = getpid() == process};
    sigset_t all;
    if (hold.is_held) {
        sigfillset(&all);
        pthread_sigmask(SIG_SETMASK, &all, &hold.mask);
        pthread_mutex_lock(&descriptor_lock);
    }
    return hold;
}

static void release_descriptors(const struct hold *hold)
{
    if (!hold->is_held)
        return;
    pthread_mutex_unlock(&descriptor_lock);
    pthread_sigmask(SIG_SETMASK, &hold->mask, NULL);
}

/* Notes which file a descriptor is. Returns whether it is open. */
static bool note_file(int fd, struct file *file)
{
    struct stat found;
    if (fstat(fd, &found) != 0)
        return false;
    *file = (struct file){found.st_dev, found.st_ino};
    return true;
}

static bool is_file(int fd, const struct file *file)
{
    struct file found;
    return note_file(fd, &found) && found.device == file->device && found.inode == file->inode;
}

/* Whether the descriptor still is the connection. The program may have closed it, and its number
 * may be another file. */
static bool is_open(const struct connection *connection)
{
    return connection->fd >= 0 && is_file(connection->fd, &connection->file);
}

/* Closes the connection. A shutdown ends the session even if another process has a copy of the
 * descriptor. */
static void end_session(struct connection *connection)
{
    if (is_open(connection)) {
        shutdown(connection->fd, SHUT_RDWR);
        const struct hold hold = hold_descriptors();
        close(connection->fd);
        connection->fd = -1;
        release_descriptors(&hold);
    }
    connection->fd = -1;
    connection->holds = false;
}

/* Closes a child's copy of its parent's connection, whose session goes on. */
static void close_copy(struct connection *connection)
{
    if (is_open(connection))
        close(connection->fd);
    connection->fd = -1;
    connection->holds = false;
}

static void end_thread(void *connection)
{
    current_call = 1;
    end_session(connection);
    own_connection = NULL;
    atomic_store(&((struct connection *)connection)->taken, false);
    current_call = 0;
}

static void before_fork(void) { fork_hold = hold_descriptors(); }

static void after_fork(void) { release_descriptors(&fork_hold); }

/* Closes a forked child's copies of its parent's connections, and frees the places of the threads
 * that it doesn't have. */
static void begin_child(void)
{
    process = getpid();
    for (struct connection *each = connections; each < connections + CONNECTIONS; each++) {
        if (!atomic_load(&each->taken))
            continue;
        close_copy(each);
        if (each != own_connection && !each->is_opened)
            atomic_store(&each->taken, false);
    }
    release_descriptors(&fork_hold);
}

static void begin_process(void)
{
    process = getpid();
    settings.keeps_connections = pthread_key_create(&thread_end, end_thread) == 0
                                 && pthread_atfork(before_fork, after_fork, begin_child) == 0;
}

static void begin(void)
{
    const char *word = secure_getenv("SYSVMSG_EINTR");
    server.ends_by_signals = !word || strcmp(word, "0") != 0;
    word = secure_getenv("SYSVMSG_PATH");
    if (!word || !*word)
        return;
    peer_set_path(&server, word);
    settings.has_standard_error = note_file(STDERR_FILENO, &standard_error);
    pthread_once(&process_start, begin_process);
    settings.has_server = true;
}

bool has_server(void)
{
    static pthread_once_t begun = PTHREAD_ONCE_INIT;
    pthread_once(&begun, begin);
    return settings.has_server;
}

/* Writes to standard error. If that is a pipe without a reader, the SIGPIPE is taken back. */
static void write_line(const struct iovec *pieces, int count)
{
    sigset_t pipe_signal, before, pending;
    sigemptyset(&pipe_signal);
    sigaddset(&pipe_signal, SIGPIPE);
    sigpending(&pending);
    pthread_sigmask(SIG_BLOCK, &pipe_signal, &before);
    if (writev(STDERR_FILENO, pieces, count) < 0 && errno == EPIPE
        && !sigismember(&pending, SIGPIPE))
        sigtimedwait(&pipe_signal, NULL, &(struct timespec){0, 0});
    pthread_sigmask(SIG_SETMASK, &before, NULL);
}

static struct iovec piece(const char *text) { return (struct iovec){(void *)text, strlen(text)}; }

/* Reports on standard error why calls fail, once per process. If the program has put another file
 * in its place, that may be one of data. */
static void say_once(const char *why)
{
    static atomic_flag said = ATOMIC_FLAG_INIT;
    if (atomic_flag_test_and_set(&said) || !settings.has_standard_error
        || !is_file(STDERR_FILENO, &standard_error))
        return;
    struct iovec line[] = {piece("libsysvmsg_preload: "),
        piece(*server.address.sun_path ? server.address.sun_path : "SYSVMSG_PATH"), piece(": "),
        piece(why), piece("; message queue calls fail with EIO\n")};
    write_line(line, 5);
}

/* If a signal handler forks during a call, it returns to that call in the child too. */
static bool is_in_child(const struct call *call) { return getpid() != call->process; }

/* Ends a session that failed during a call. In a child that a signal handler forked during the call
 * nothing is wrong: there the call was interrupted. */
static int broken(struct connection *connection, struct call *call, const char *why)
{
    if (is_in_child(call)) {
        close_copy(connection);
        return EINTR;
    }
    end_session(connection);
    call->why = why;
    return EIO;
}

/* Runs if a thread is cancelled during a call. A request is without its reply, so the session can't
 * go on. */
static void abandon(void *connection)
{
    end_session(connection);
    if (connection == own_connection)
        current_call = 0;
    atomic_store(&((struct connection *)connection)->in_use, false);
}

/* Takes bytes off the front of two pieces. */
static void skip(struct iovec pieces[2], size_t count)
{
    for (int i = 0; i < 2; i++) {
        size_t here = count < pieces[i].iov_len ? count : pieces[i].iov_len;
        pieces[i].iov_base = (char *)pieces[i].iov_base + here;
        pieces[i].iov_len -= here;
        count -= here;
    }
}

/* Most frames are in one piece, and then these two cost less without a list of pieces. */
static ssize_t send_pieces(int fd, struct iovec pieces[2])
{
    if (pieces[1].iov_len == 0)
        return send(fd, pieces[0].iov_base, pieces[0].iov_len, MSG_NOSIGNAL);
    return sendmsg(fd, &(struct msghdr){.msg_iov = pieces, .msg_iovlen = 2}, MSG_NOSIGNAL);
}

static ssize_t receive_pieces(int fd, struct iovec pieces[2], int flags)
{
    if (pieces[1].iov_len == 0)
        return recv(fd, pieces[0].iov_base, pieces[0].iov_len, flags);
    return recvmsg(fd, &(struct msghdr){.msg_iov = pieces, .msg_iovlen = 2}, flags);
}

static long milliseconds(void)
{
    struct timespec now;
    clock_gettime(CLOCK_MONOTONIC, &now);
    return now.tv_sec * 1000L + now.tv_nsec / 1000000L;
}

/* Waits until there is something to read, and returns what poll returns. In a child that a signal
 * handler forked there is no connection, and reading fails at once. */
static int await_input(int fd, int timeout)
{
    return fd < 0 ? 1 : poll(&(struct pollfd){.fd = fd, .events = POLLIN}, 1, timeout);
}

/* Waits for more of a reply. Returns what recv returns, or 0 if nothing came until `deadline`. */
static ssize_t await_rest(int fd, struct iovec pieces[2], long deadline)
{
    for (;;) {
        long left = deadline - milliseconds();
        int ready = left <= 0 ? 0 : await_input(fd, (int)left);
        if (ready == 0)
            return 0;
        if (ready > 0)
            return receive_pieces(fd, pieces, MSG_DONTWAIT);
        if (errno != EINTR)
            return -1;
    }
}

/* Whether a reply goes on after the bytes that have arrived, within the room that is left. */
static bool goes_on(const struct frame *frame, const struct iovec pieces[2])
{
    if (frame->length < LENGTH_BYTES)
        return true;
    size_t whole = frame_length(frame->bytes), room = pieces[0].iov_len + pieces[1].iov_len;
    return whole > frame->length && whole - frame->length <= room;
}

/* The milliseconds that a call may still wait, or -1 if there is no limit. */
static int time_left(const struct call *call)
{
    if (call->deadline == 0)
        return -1;
    long left = call->deadline - milliseconds();
    return left < 0 ? 0 : left < INT_MAX ? (int)left : INT_MAX;
}

/* Waits until there is something to read or the time of the call is over, and returns what poll
 * returns. Each signal handler that runs meanwhile ends it with EINTR, and nothing else does. */
static int await_cancellable(struct connection *connection, const struct call *call)
{
    int ready;
    pthread_cleanup_push(abandon, connection);
    pthread_setcancelstate(call->cancel_state, NULL);
    ready = await_input(connection->fd, time_left(call));
    pthread_setcancelstate(PTHREAD_CANCEL_DISABLE, NULL);
    pthread_cleanup_pop(0);
    return ready;
}

/* Whether the program handles any signal. */
static bool has_handler(void)
{
    struct sigaction action;
    for (int number = 1; number < NSIG; number++)
        if (sigaction(number, NULL, &action) == 0 && action.sa_handler != SIG_DFL
            && action.sa_handler != SIG_IGN)
            return true;
    return false;
}

/* Notes that a signal handler ran during a call. */
static void note_signal(struct call *call)
{
    if ((call->may_wait && call->ends_by_signals) || is_in_child(call))
        call->ended_by = EINTR;
}

/* Waits on for a reply after a first recv ended early, `by_signal` or by its limit of time. The
 * limit makes recv fail with EINTR after each handler, also with SA_RESTART, but after a stop that
 * was continued too. If the program has no handler, it was a stop. */
static void await_longer(struct connection *connection, struct call *call, bool by_signal)
{
    if (by_signal && has_handler())
        note_signal(call);
    while (call->ended_by == 0) {
        int ready = await_cancellable(connection, call);
        if (ready > 0 || (ready < 0 && errno != EINTR))
            return;
        if (ready == 0)
            call->ended_by = ETIMEDOUT;
        else
            note_signal(call);
    }
}

/* Leaves a wait: the server replies if the call is done, and else ends the session without a reply.
 * A connection that is not the call's own any more is not read either. */
static void leave(struct connection *connection, const struct call *call)
{
    if (is_in_child(call))
        close_copy(connection);
    else if (is_open(connection))
        shutdown(connection->fd, SHUT_WR);
    else
        connection->fd = -1;
}

/* Whether recv ended without anything: by its limit of time, or by a signal. */
static bool is_early(ssize_t got) { return got < 0 && (errno == EAGAIN || errno == EINTR); }

/* Waits for what a call that was left gets: a reply, or the end of its session. Returns what recv
 * returns, or 0 if the server sends neither. */
static ssize_t await_end(struct connection *connection, struct iovec pieces[2], struct call *call)
{
    long deadline = milliseconds() + LEAVE_SECONDS * 1000L;
    ssize_t got;
    do
        got = await_rest(connection->fd, pieces, deadline);
    while (is_early(got));
    call->has_no_end = got == 0 && milliseconds() >= deadline;
    return got;
}

/* Waits for the beginning of a reply as its call may wait. Returns what recv returns, or 0 if a
 * call whose wait has ended was not served yet. */
static ssize_t await_reply(
    struct connection *connection, bool is_hello, struct iovec pieces[2], struct call *call)
{
    if (call->ended_by != 0)
        leave(connection, call);
    ssize_t got = receive_pieces(connection->fd, pieces, 0);
    if (is_early(got) && call->ended_by == 0) {
        await_longer(connection, call, errno == EINTR);
        if (call->ended_by != 0 && is_hello && !is_in_child(call))
            return await_rest(connection->fd, pieces, milliseconds() + HELLO_MILLISECONDS);
        if (call->ended_by != 0)
            leave(connection, call);
        got = receive_pieces(connection->fd, pieces, 0);
    }
    while (is_early(got) && call->ended_by == 0) {
        await_input(connection->fd, -1);
        got = receive_pieces(connection->fd, pieces, MSG_DONTWAIT);
    }
    return is_early(got) ? await_end(connection, pieces, call) : got;
}

/* Reads a reply. Returns what recv returned last: if that is above 0, no more is to come. */
static ssize_t read_reply(struct connection *connection, struct frame *frame, struct call *call)
{
    struct iovec pieces[2];
    long deadline = 0;
    frame_reply(frame, pieces);
    frame->length = 0;
    ssize_t got = await_reply(connection, frame->operation == HELLO, pieces, call);
    while (got > 0) {
        frame->length += (size_t)got;
        skip(pieces, (size_t)got);
        if (!goes_on(frame, pieces))
            break;
        if (deadline == 0)
            deadline = milliseconds() + REST_SECONDS * 1000L;
        got = await_rest(connection->fd, pieces, deadline);
    }
    return got;
}

/* Sends a request. Returns how many of its bytes were sent. If not all were, errno says why. */
static size_t write_request(int fd, struct frame *frame)
{
    struct iovec pieces[2];
    size_t sent = 0;
    frame_request(frame, pieces);
    while (sent < frame->length) {
        ssize_t count = send_pieces(fd, pieces);
        if (count < 0 && errno != EINTR)
            break;
        count = count > 0 ? count : 0;
        skip(pieces, (size_t)count);
        sent += (size_t)count;
    }
    return sent;
}

/* Ends a call whose request was not sent as a whole. If its text isn't there, the session goes on
 * unless it has a part of the request. */
static int unsent(struct connection *connection, struct call *call, size_t sent)
{
    if (errno != EFAULT)
        return broken(connection, call, "the server closed the connection");
    if (sent > 0)
        end_session(connection);
    return EFAULT;
}

/* Ends a call whose reply did not come as a whole: `got` is what recv returned last. A reset says
 * that the server has not read the whole request: no other one is under way. Then the call had no
 * effect, and neither had a call that was left and has no byte of a reply. */
static int unanswered(
    struct connection *connection, const struct frame *frame, struct call *call, ssize_t got)
{
    bool is_unread = got < 0 && errno == ECONNRESET && frame->length == 0;
    bool has_ended = (got == 0 && frame->length == 0 && !call->has_no_end) || is_unread;
    bool has_left = has_ended && call->ended_by != 0;
    if (is_unread)
        call->outcome = NOT_MADE;
    if (has_left || (got < 0 && errno == EFAULT)) {
        end_session(connection);
        return has_left ? call->ended_by : EFAULT;
    }
    if (call->has_no_end)
        return broken(connection, call, "the server does not reply");
    return broken(connection, call,
        frame->length == 0 ? "the server closed the connection"
                           : "the server did not complete a reply");
}

/* Sends a request and reads its reply. */
static int exchange(struct connection *connection, struct frame *frame, struct call *call)
{
    frame_state_version(frame, connection->peer->can_hold ? VERSION_THREE : VERSION_TWO);
    size_t sent = write_request(connection->fd, frame);
    if (sent < frame->length)
        return unsent(connection, call, sent);
    if (frame->operation != HELLO)
        call->outcome = UNKNOWN;
    ssize_t got = read_reply(connection, frame, call);
    if (got <= 0)
        return unanswered(connection, frame, call, got);
    int error = frame_judge(frame);
    if (error < 0)
        return broken(connection, call, "a reply of the server is malformed");
    if (frame->operation != HELLO)
        call->outcome = ANSWERED;
    return error;
}

/* Moves a descriptor up, or returns it as it is if that fails. */
static int move_up(int fd)
{
    struct rlimit limit = {.rlim_cur = 0};
    getrlimit(RLIMIT_NOFILE, &limit);
    int least = limit.rlim_cur > HIGH_DESCRIPTOR ? HIGH_DESCRIPTOR : (int)(limit.rlim_cur / 2);
    int high = fcntl(fd, F_DUPFD_CLOEXEC, least);
    if (high < 0)
        return fd;
    close(fd);
    return high;
}

/* Opens the connection's socket, and notes which file it is. */
static bool open_held(struct connection *connection)
{
    int fd = socket(AF_UNIX, SOCK_STREAM | SOCK_CLOEXEC, 0);
    if (fd < 0)
        return false;
    fd = move_up(fd);
    setsockopt(fd, SOL_SOCKET, SO_RCVTIMEO, &(struct timeval){.tv_usec = FIRST_MICROSECONDS},
        sizeof(struct timeval));
    if (!note_file(fd, &connection->file)) {
        close(fd);
        return false;
    }
    connection->fd = fd;
    return true;
}

static bool open_socket(struct connection *connection)
{
    const struct hold hold = hold_descriptors();
    bool is_opened = open_held(connection);
    release_descriptors(&hold);
    return is_opened;
}

/* Bounds what a socket that blocks waits for until it can send or connect. 0 is no limit. */
static void set_send_limit(int fd, int milliseconds)
{
    struct timeval limit = {milliseconds / 1000, milliseconds % 1000 * 1000};
    setsockopt(fd, SOL_SOCKET, SO_SNDTIMEO, &limit, sizeof limit);
}

/* A connect that a signal interrupts, or whose time is over, waited because the server's queue of
 * connections is full. */
static bool connect_server(const struct connection *connection, struct call *call)
{
    const struct sockaddr *address = (const struct sockaddr *)&connection->peer->address;
    int status, left = time_left(call);
    if (left >= 0)
        set_send_limit(connection->fd, left > 0 ? left : 1);
    do {
        status = connect(connection->fd, address, sizeof connection->peer->address);
        if (status < 0 && errno == EINTR && call->may_wait && call->ends_by_signals)
            call->ended_by = EINTR;
        else if (status < 0 && errno == EAGAIN && left >= 0)
            call->ended_by = ETIMEDOUT;
    } while (status < 0 && errno == EINTR && call->ended_by == 0);
    if (status == 0 && left >= 0)
        set_send_limit(connection->fd, 0);
    return status == 0;
}

static int say_hello(struct connection *connection, struct call *call)
{
    struct frame hello;
    frame_begin(&hello, HELLO);
    frame_put_u32(&hello, connection->user);
    frame_put_u32(&hello, connection->group);
    frame_put_u32(&hello, (uint32_t)call->process);
    frame_end(&hello);
    int error = exchange(connection, &hello, call);
    if (error != 0)
        return connection->fd < 0 ? error
                                  : broken(connection, call, "the server refused the hello");
    connection->slots = (int)frame_take_u32(&hello);
    return 0;
}

static const char *why_unconnected(int error)
{
    switch (error) {
    case EACCES: return "this user may not connect to the server";
    case ENOENT:
    case ECONNREFUSED: return "there is no server";
    default: return "no connection to the server can be made";
    }
}

/* Notes the server of a session that has begun: another one has other queues. */
static void note_server(struct connection *session, struct connection *opened)
{
    struct ucred peer = {.pid = 0};
    struct stat file = {.st_ino = 0};
    stat(session->peer->address.sun_path, &file);
    getsockopt(session->fd, SOL_SOCKET, SO_PEERCRED, &peer, &(socklen_t){sizeof peer});
    const struct listener found = {peer.pid, {file.st_dev, file.st_ino}};
    const struct hold hold = hold_descriptors();
    const struct listener *last = &opened->servers.last;
    bool is_same = last->process == found.process && last->socket.device == found.socket.device
                   && last->socket.inode == found.socket.inode;
    if (!is_same && last->process >= 0)
        opened->servers.changes++;
    opened->servers.last = found;
    session->changes = opened->servers.changes;
    release_descriptors(&hold);
}

/* Where a queue is noted, and as what. */
static _Atomic uint64_t *place_of(const struct servers *servers, int queue)
{
    return &servers->found[(unsigned)queue % servers->places];
}

static uint64_t note_of(const struct connection *session, int queue)
{
    return (uint64_t)session->changes << 32 | (uint32_t)queue;
}

/* Whether a request names a queue that was not found at the server of the session. */
static bool is_of_other_server(
    const struct connection *session, const struct connection *opened, const struct frame *frame)
{
    int queue = frame_queue(frame);
    return session->changes > 0 && queue >= 0
           && atomic_load(place_of(&opened->servers, queue)) != note_of(session, queue);
}

/* Notes the queue of a reply. */
static void note_queue(
    const struct connection *session, struct connection *opened, const struct frame *frame)
{
    int queue = frame_found(frame);
    if (session->changes > 0 && queue >= 0)
        atomic_store(place_of(&opened->servers, queue), note_of(session, queue));
}

static int begin_session(struct connection *connection, struct call *call)
{
    connection->unconnected = 0;
    if (!*connection->peer->address.sun_path)
        return broken(connection, call, "it is longer than 107 bytes");
    if (!open_socket(connection) || !connect_server(connection, call)) {
        if (call->ended_by != 0)
            return call->ended_by;
        connection->unconnected = errno;
        return broken(connection, call, why_unconnected(errno));
    }
    int error = say_hello(connection, call);
    if (error == 0 && call->opened)
        note_server(connection, call->opened);
    return error;
}

/* Whether the thread lacks the capabilities to become any user or group. Only a new program or user
 * namespace can give it these. */
static bool is_confined(void)
{
    struct __user_cap_header_struct self = {.version = _LINUX_CAPABILITY_VERSION_3};
    struct __user_cap_data_struct sets[_LINUX_CAPABILITY_U32S_3];
    return syscall(SYS_capget, &self, sets) == 0
           && !(sets[0].permitted & (CAP_TO_MASK(CAP_SETUID) | CAP_TO_MASK(CAP_SETGID)));
}

/* Notes the effective user and group. If the real and the saved ones are the same, there are no
 * others that a confined thread can change to. */
static void note_ids(struct connection *connection)
{
    uid_t real_user, saved_user;
    gid_t real_group, saved_group;
    if (connection->peer->states_ids) {
        connection->user = connection->peer->user;
        connection->group = connection->peer->group;
        connection->has_fixed_ids = true;
        return;
    }
    getresuid(&real_user, &connection->user, &saved_user);
    getresgid(&real_group, &connection->group, &saved_group);
    connection->has_fixed_ids = real_user == connection->user && saved_user == connection->user
                                && real_group == connection->group
                                && saved_group == connection->group && is_confined();
}

static bool has_present_ids(const struct connection *connection)
{
    return connection->has_fixed_ids
           || (connection->user == geteuid() && connection->group == getegid());
}

/* Opens the connection unless it is open and its hello had the present effective user and group. */
static int make_ready(struct connection *connection, struct call *call)
{
    if (is_open(connection) && has_present_ids(connection))
        return 0;
    end_session(connection);
    note_ids(connection);
    return begin_session(connection, call);
}

/* Takes a place for a connection, if one is left. */
static struct connection *take_place(const struct peer *peer)
{
    for (struct connection *each = connections; each < connections + CONNECTIONS; each++) {
        if (atomic_exchange(&each->taken, true))
            continue;
        each->fd = -1;
        each->peer = peer;
        each->is_opened = false;
        each->holds = false;
        each->servers = (struct servers){.last.process = -1};
        each->why = NULL;
        each->was_sent = false;
        return each;
    }
    return NULL;
}

/* Gives the calling thread a place, if one is left. */
static void take_own_place(void)
{
    struct connection *place = take_place(&server);
    if (place && pthread_setspecific(thread_end, place) == 0)
        own_connection = place;
    else if (place)
        atomic_store(&place->taken, false);
}

/* Returns the thread's connection, or `single`, which serves one call. A single one serves a signal
 * handler that runs during a call, a child of vfork, which shares its parent's memory but not its
 * descriptors, and a thread that found no place. */
static struct connection *borrow(struct connection *single, const struct call *call)
{
    if (settings.keeps_connections && call->process == process && !current_call) {
        current_call = 1;
        if (!own_connection)
            take_own_place();
        if (own_connection)
            return own_connection;
        current_call = 0;
    }
    return single;
}

/* Whether a call is about the message that its session holds. */
static bool is_of_held(const struct frame *frame)
{
    return frame->operation == HOLD || frame->operation == DONE || frame->operation == BACK;
}

/* The same of a connection that was opened. A single one also serves a thread if another one uses
 * the connection, and a call that may wait while a message is held. Returns NULL if the call needs
 * the session of the connection. */
static struct connection *borrow_opened(struct connection *opened, struct connection *single,
    const struct call *call, const struct frame *frame)
{
    bool is_apart = opened->holds && call->may_wait && !is_of_held(frame);
    if (!is_apart && call->process == process && !atomic_exchange(&opened->in_use, true))
        return opened;
    return is_of_held(frame) ? NULL : single;
}

static void give_back(struct connection *connection, struct connection *single)
{
    if (connection == single)
        end_session(single);
    else if (connection->is_opened)
        atomic_store(&connection->in_use, false);
    else
        current_call = 0;
}

/* Notes whether the session holds a message after a call that returns `error`. With any reply to a
 * back it holds none, and it holds none once it has ended. If a done fails with EINVAL, the time of
 * the message was over. */
static void note_held(struct connection *connection, const struct frame *frame, int error)
{
    if (frame->operation == BACK || (frame->operation == DONE && error == EINVAL))
        connection->holds = false;
    else if (error == 0 && is_of_held(frame))
        connection->holds = frame->operation == HOLD;
}

/* Makes a call over a connection that is ready. */
static int make_ready_call(struct connection *connection, struct frame *frame, struct call *call)
{
    if (call->opened && is_of_other_server(connection, call->opened, frame)) {
        call->why = "another server was started: its queues have to be found";
        return EIO;
    }
    int error = exchange(connection, frame, call);
    if (error == 0 && call->opened)
        note_queue(connection, call->opened, frame);
    return error;
}

/* Makes a call over a connection that is borrowed. */
static int make_call(struct connection *connection, struct frame *frame, struct call *call)
{
    int error = make_ready(connection, call);
    if (error == 0)
        error = make_ready_call(connection, frame, call);
    /* (a message that a hold has got just then comes back) */
    if (error == 0 && call->ended_by != 0 && frame->operation == HOLD)
        error = call->ended_by;
    note_held(connection, frame, error);
    if (call->ended_by != 0)
        end_session(connection);
    frame->slots = connection->slots;
    return error;
}

/* Makes a call over the connection, or over a single one that ends after it. */
static int call_over(struct connection *opened, struct frame *frame, struct call *call)
{
    struct connection single = {.fd = -1, .peer = opened ? opened->peer : &server};
    struct connection *connection =
        opened ? borrow_opened(opened, &single, call, frame) : borrow(&single, call);
    if (!connection)
        return EBUSY;
    int error = make_call(connection, frame, call);
    if (error == EIO && !opened)
        say_once(call->why);
    give_back(connection, &single);
    return error;
}

/* Notes why a call failed with EIO, for its thread and for others. */
static void note_failure(struct connection *opened, const struct call *call)
{
    opened->why = last.why = call->why;
    opened->was_sent = call->outcome == UNKNOWN;
    last.failed = opened;
    last.failed_outcome = call->outcome;
}

/* Notes what became of a call. One that was given up had no effect. */
static void note_outcome(struct connection *opened, struct call *call, int error)
{
    if (error == EINTR || error == ETIMEDOUT)
        call->outcome = NOT_MADE;
    if (error == EIO)
        note_failure(opened, call);
    last.outcome = call->outcome;
}

/* The deadline of a wait, or 0 if it has no limit. */
static long deadline_in(int milliseconds_at_most)
{
    return milliseconds_at_most < 0 ? 0 : milliseconds() + milliseconds_at_most;
}

int ask(struct connection *opened, struct frame *frame, bool may_wait, int milliseconds_at_most)
{
    int cancel_state, errno_before = errno;
    const struct peer *peer = opened ? opened->peer : &server;
    if (is_of_held(frame) && !peer->can_hold)
        return EPROTONOSUPPORT;
    pthread_setcancelstate(PTHREAD_CANCEL_DISABLE, &cancel_state);
    struct call call = {.opened = opened,
        .process = getpid(),
        .may_wait = may_wait,
        .ends_by_signals = peer->ends_by_signals,
        .cancel_state = may_wait ? cancel_state : PTHREAD_CANCEL_DISABLE,
        .deadline = may_wait ? deadline_in(milliseconds_at_most) : 0,
        .outcome = NOT_MADE};
    int error = call_over(opened, frame, &call);
    if (opened)
        note_outcome(opened, &call, error);
    pthread_setcancelstate(cancel_state, NULL);
    errno = errno_before;
    return error;
}

/* Whether the server begins a session of version 2. */
static bool reads_version_two(const struct connection *connection, struct call *call)
{
    struct peer peer = *connection->peer;
    struct connection single = {.fd = -1, .peer = &peer};
    peer.can_hold = false;
    int error = make_ready(&single, call);
    end_session(&single);
    return error == 0;
}

/* Begins a session within a time. Returns 0 or an errno, that of the connect if it failed. A server
 * that does not read version 3 closes the connection, as one does that ends. */
static int begin_opened(struct connection *connection, struct call *call)
{
    int error = make_ready(connection, call);
    if (error != EIO)
        return error;
    if (connection->unconnected != 0)
        return connection->unconnected;
    if (!connection->peer->can_hold || !reads_version_two(connection, call))
        return EIO;
    call->why = "the server lets clients hold no messages";
    return EPROTONOSUPPORT;
}

/* The call that begins a session. It is no cancellation point. */
static struct call beginning(struct connection *opened, int milliseconds_at_most)
{
    return (struct call){.opened = opened,
        .process = getpid(),
        .may_wait = true,
        .ends_by_signals = opened->peer->ends_by_signals,
        .cancel_state = PTHREAD_CANCEL_DISABLE,
        .deadline = deadline_in(milliseconds_at_most),
        .outcome = NOT_MADE};
}

/* Whether no server listens, or one ended while the session began. Another one may start. */
static bool has_no_server(const struct connection *connection, int error)
{
    return error == ENOENT || error == ECONNREFUSED
           || (error == EIO && connection->unconnected == 0);
}

/* Waits before the next try, within the time of the call. Returns false if that is over or a signal
 * handler ran. */
static bool pause_before_retry(struct call *call, int pause)
{
    int left = time_left(call);
    if (left == 0)
        return false;
    if (poll(NULL, 0, left < 0 || pause < left ? pause : left) < 0 && errno == EINTR)
        note_signal(call);
    return call->ended_by == 0;
}

/* The same, and waits for a server that does not listen yet if the call `retries`. */
static int begin_within(struct connection *connection, struct call *call, bool retries)
{
    int cancel_state, error, pause = FIRST_PAUSE;
    pthread_setcancelstate(PTHREAD_CANCEL_DISABLE, &cancel_state);
    while ((error = begin_opened(connection, call)) != 0 && retries
           && has_no_server(connection, error) && pause_before_retry(call, pause))
        pause = 2 * pause < LONGEST_PAUSE ? 2 * pause : LONGEST_PAUSE;
    pthread_setcancelstate(cancel_state, NULL);
    return call->ended_by != 0 ? call->ended_by : error;
}

/* Makes the places for the queues that are found. Returns 0 or an errno. */
static int make_places(struct connection *opened)
{
    struct servers *servers = &opened->servers;
    servers->places = opened->slots > 0 ? (unsigned)opened->slots : 1;
    servers->found = calloc(servers->places, sizeof *servers->found);
    return servers->found ? 0 : ENOMEM;
}

int connection_open(
    const struct peer *peer, int milliseconds_at_most, bool retries, struct connection **opened)
{
    pthread_once(&process_start, begin_process);
    struct connection *connection = take_place(peer);
    if (!connection)
        return EMFILE;
    connection->is_opened = true;
    connection->in_use = false;
    struct call call = beginning(connection, milliseconds_at_most);
    int error = begin_within(connection, &call, retries);
    if (error == 0)
        error = make_places(connection);
    if (last.failed == connection)
        last.failed = NULL;
    if (error == 0)
        *opened = connection;
    else
        connection_close(connection);
    return error;
}

void connection_close(struct connection *connection)
{
    end_session(connection);
    connection->is_opened = false;
    free((void *)connection->servers.found);
    atomic_store(&connection->taken, false);
}

int connection_slots(const struct connection *connection) { return connection->slots; }

const char *connection_why(const struct connection *connection)
{
    return last.failed == connection ? last.why : connection->why;
}

bool connection_was_sent(const struct connection *connection)
{
    return last.failed == connection ? last.failed_outcome == UNKNOWN : connection->was_sent;
}

void connection_begin_call(void) { last.outcome = NOT_MADE; }

enum outcome connection_outcome(void) { return last.outcome; }

bool connection_is_holding(const struct connection *connection) { return connection->holds; }

int connection_retry(struct connection *connection, int milliseconds_at_most)
{
    if (atomic_exchange(&connection->in_use, true))
        return EBUSY;
    struct call call = beginning(connection, milliseconds_at_most);
    end_session(connection);
    int error = begin_within(connection, &call, true);
    if (error != 0 && call.why)
        connection->why = call.why;
    if (error != 0 && call.why && last.failed == connection)
        last.why = call.why;
    atomic_store(&connection->in_use, false);
    return error;
}
