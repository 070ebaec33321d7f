#define _GNU_SOURCE
#include "slot.h"

#include <errno.h>
#include <inttypes.h>
#include <limits.h>
#include <poll.h>
#include <stdio.h>
#include <stdlib.h>
#include <string.h>
#include <time.h>
#include <unistd.h>

enum { TRY_MS = 100 /* between two tries to find a queue */ };

long milliseconds(void)
{
    struct timespec now;
    clock_gettime(CLOCK_MONOTONIC, &now);
    return now.tv_sec * 1000L + now.tv_nsec / 1000000L;
}

/* Has the thread that runs the slots look at them. */
static void report(const struct work *work)
{
    ssize_t count = write(work->ended, &(uint64_t){1}, sizeof(uint64_t));
    (void)count;
}

static bool is_at_work(const struct slot *slot) { return slot->work->stage == WORKS; }

/* Prints a line on standard error. */
static void say(const struct slot *slot, const char *what, const char *why)
{
    fprintf(stderr, "sysvmsg-work: %s: %s%s%s\n", slot->work->options.path, what, why ? ": " : "",
        why ? why : "");
}

/* Ends the work with a status, and says why. Only the first of several reasons is printed. */
static void fail(struct slot *slot, int status, const char *what, const char *why)
{
    int none = 0;
    if (atomic_compare_exchange_strong(&slot->work->status, &none, status))
        say(slot, what, why);
    int works = WORKS;
    atomic_compare_exchange_strong(&slot->work->stage, &works, FINISHES);
    report(slot->work);
}

/* Waits for a time, or until the stage changes. */
static void pause_for(const struct slot *slot, int time)
{
    long end = milliseconds() + time, left;
    while (is_at_work(slot) && (left = end - milliseconds()) > 0)
        poll(NULL, 0, (int)left);
}

static const char NO_SERVER[] = "no connection to the server";

/* A queue of a key: its identifier, or -1 with errno set. */
static int queue_of(const struct slot *slot, int key)
{
    return sysvmsg_get(slot->server, key, slot->work->options.creates ? SYSVMSG_CREAT | 0600 : 0);
}

/* Finds the queues. Returns NULL, or the key of the one that was not found, with an errno. */
static const char *find_queues(struct slot *slot)
{
    const struct options *options = &slot->work->options;
    slot->queue = queue_of(slot, options->key);
    if (slot->queue < 0)
        return options->key_word;
    slot->failed = options->failed_word ? queue_of(slot, options->failed) : 0;
    return slot->failed < 0 ? options->failed_word : NULL;
}

/* Begins a session, and finds the queues in it: a restarted server has others. If `retries`, a
 * server that does not listen is waited for, up to a time. Returns NULL, or what failed with an
 * errno. */
static const char *begin_session(struct slot *slot, bool retries, long end)
{
    const char *path = slot->work->options.path;
    long left = end - milliseconds();
    sysvmsg_close(slot->server);
    slot->server = retries ? sysvmsg_open_holding_retry(path, left > 0 ? (int)left : 0)
                           : sysvmsg_open_holding(path, SYSVMSG_NO_LIMIT);
    return slot->server ? find_queues(slot) : NO_SERVER;
}

/* Says why a session did not begin. */
static const char *reason(int error)
{
    switch (error) {
    case EPROTONOSUPPORT: return "the server lets clients hold no messages: start it with --hold";
    case EIO: return "the server closed the connection";
    default: return strerror(error);
    }
}

/* Begins a session. A server that is not there, or has not the queue yet, is waited for; so is a
 * place at one that is there (ETIMEDOUT). Returns false if the work is over. */
static bool find_server(struct slot *slot)
{
    long end = milliseconds() + slot->work->options.retry_ms;
    bool has_no_server = false;
    while (is_at_work(slot)) {
        const char *what = begin_session(slot, has_no_server, end);
        int error = errno;
        if (!what) {
            slot->work->waits_for_server = false;
            return true;
        }
        bool is_waited_for = error == ENOENT || error == ECONNREFUSED || error == EIO;
        if (error != EINTR && error != ETIMEDOUT && (!is_waited_for || milliseconds() >= end)) {
            bool has_no_queue = what != NO_SERVER && error == ENOENT;
            fail(slot, FAILED, what,
                has_no_queue ? "this key has no queue: give --create" : reason(error));
            return false;
        }
        if (is_waited_for && !atomic_exchange(&slot->work->waits_for_server, true))
            say(slot, what, "waits for it");
        has_no_server = what == NO_SERVER && is_waited_for;
        if (what != NO_SERVER)
            pause_for(slot, TRY_MS);
    }
    return false;
}

/* The server or the connection was lost. */
static bool lose(struct slot *slot, const char *what)
{
    if (slot->work->options.retry_ms == 0) {
        fail(slot, FAILED, what, sysvmsg_reason(slot->server));
        return false;
    }
    say(slot, what, sysvmsg_reason(slot->server));
    return find_server(slot);
}

/* For how many milliseconds the message is held at most, up to `most`; -1 is no limit. */
static int time_left(const struct slot *slot, int most)
{
    if (slot->due == 0)
        return most;
    long left = slot->due - milliseconds();
    left = left > 0 ? left : 0;
    return most < 0 || left < most ? (int)left : most;
}

/* Whether a message came back when its time was over: it is not held, and its queue is there. */
static bool came_back(const struct slot *slot, int error)
{
    return error == EINVAL && slot->due > 0
           && sysvmsg_get(slot->server, slot->work->options.key, 0) == slot->queue;
}

/* A message cannot come back: its queue was removed, or this user may no longer send to it. */
static void say_lost(const struct slot *slot, int error)
{
    bool is_removed = error == EINVAL || error == EIDRM;
    say(slot, "a job was not done and is gone",
        is_removed ? "the queue was removed" : strerror(error));
}

/* Gives the message back. If there was no room, another session follows, so the queues are found
 * again. A message whose session was lost comes back without this. */
static bool give_back(struct slot *slot)
{
    int error = sysvmsg_back(slot->server) < 0 ? errno : 0;
    if (error != 0 && error != EIO && !came_back(slot, error))
        say_lost(slot, error);
    return is_at_work(slot) && (!find_queues(slot) || find_server(slot));
}

/* The job is done with. */
static bool finish(struct slot *slot)
{
    if (sysvmsg_done(slot->server) == 0)
        return true;
    if (errno == EIO)
        return lose(slot, sysvmsg_outcome() == SYSVMSG_UNKNOWN
                              ? "the connection ended, and a job that was done may be done again"
                              : "the connection ended, and a job that was done comes back");
    if (errno == EINVAL && slot->due > 0) {
        say(slot, "a job that was done may be done again", "its time was over");
        return true;
    }
    fail(slot, FAILED, "done", strerror(errno));
    return false;
}

/* Gives the message back after a pause. */
static bool give_back_later(struct slot *slot)
{
    pause_for(slot, time_left(slot, slot->work->options.pause_ms));
    return give_back(slot);
}

/* Sends the message to the queue of --failed, while it is held. */
static bool send_failed(struct slot *slot, size_t size)
{
    do {
        int limit = time_left(slot, SYSVMSG_NO_LIMIT);
        if (sysvmsg_snd(slot->server, slot->failed, &slot->message, size, limit) == 0)
            return finish(slot);
    } while (errno == EINTR && slot->work->stage != GIVES_BACK);
    if (errno == EIO)
        return lose(slot, sysvmsg_outcome() == SYSVMSG_UNKNOWN
                              ? "the connection ended, and a job that failed may be in both queues"
                              : "the connection ended");
    if (errno == ETIMEDOUT || errno == EAGAIN)
        say(slot, slot->work->options.failed_word, "there was no room in time");
    else if (errno != EINTR)
        say(slot, slot->work->options.failed_word, strerror(errno));
    return give_back_later(slot);
}

/* Notes that another thread may end a command. */
static void note_command(struct slot *slot, pid_t command)
{
    pthread_mutex_lock(&slot->lock);
    slot->command = command;
    slot->is_told = slot->is_late = false;
    pthread_mutex_unlock(&slot->lock);
    if (slot->due > 0)
        report(slot->work);
}

/* Notes that it has ended. Returns whether the time of its message was over. */
static bool note_end(struct slot *slot)
{
    pthread_mutex_lock(&slot->lock);
    slot->command = 0;
    bool is_late = slot->is_late;
    pthread_mutex_unlock(&slot->lock);
    return is_late;
}

/* Sends a signal to the command. The lock is held. */
static void signal_command(struct slot *slot, int number)
{
    if (number != SIGTERM || !slot->is_told)
        kill(-slot->command, number);
    slot->is_told = true;
}

void slot_signal(struct slot *slot, int number)
{
    pthread_mutex_lock(&slot->lock);
    if (slot->command > 0)
        signal_command(slot, number);
    pthread_mutex_unlock(&slot->lock);
}

long slot_end_late(struct slot *slot, long now)
{
    long next = LONG_MAX;
    pthread_mutex_lock(&slot->lock);
    if (slot->command > 0 && slot->due > 0 && !command_has_ended(slot->command)) {
        long last = slot->due + KILL_MS;
        next = now < slot->due ? slot->due : now < last ? last : LONG_MAX;
        slot->is_late = now >= slot->due;
        if (slot->is_late)
            signal_command(slot, now < last ? SIGTERM : SIGKILL);
    }
    pthread_mutex_unlock(&slot->lock);
    return next;
}

enum { NOT_RUN = -1, LATE = -2 };

/* Runs the command with the message. Returns its status, or LATE if it ran until the time of the
 * message was over. */
static int run_command(struct slot *slot, size_t size)
{
    const struct options *options = &slot->work->options;
    struct command command;
    int error = command_start(
        &command, options->command, options->key_word, slot->message.type, &slot->work->before);
    if (error != 0) {
        int status = error == ENOENT ? NOT_FOUND : NOT_EXECUTABLE;
        fail(slot, status, options->command[0], strerror(error));
        return NOT_RUN;
    }
    note_command(slot, command.pid);
    command_feed(&command, slot->message.body, size);
    command_await(&command);
    /* (from here on its number may be that of another process) */
    bool is_late = note_end(slot);
    int status = command_status(&command);
    return is_late ? LATE : status;
}

/* Says that the command of a job failed. */
static void say_failed(const struct slot *slot, size_t size, int status)
{
    const struct options *options = &slot->work->options;
    char how[60];
    if (status == LATE)
        snprintf(how, sizeof how, "was ended after %d seconds", options->seconds);
    else
        snprintf(how, sizeof how, "ended with status %d", status);
    fprintf(stderr, "sysvmsg-work: %s: a job of type %" PRId64 " and %zu bytes: the command %s\n",
        options->path, slot->message.type, size, how);
}

/* Does a job: the message that is held. */
static bool do_job(struct slot *slot, size_t size)
{
    int status = run_command(slot, size);
    if (status == 0 && slot->work->stage != GIVES_BACK)
        return finish(slot);
    if (status == NOT_RUN || slot->work->stage == GIVES_BACK)
        return give_back(slot);
    say_failed(slot, size, status);
    /* (it is another one's, so it is neither kept nor sent to the queue of --failed) */
    if (status == LATE)
        return give_back(slot);
    return slot->work->options.failed_word ? send_failed(slot, size) : give_back_later(slot);
}

/* The server has no place for one more message that is held. */
static bool await_place(struct slot *slot)
{
    if (!atomic_exchange(&slot->work->waits_for_place, true))
        say(slot, "the server can hold no more messages", "waits for a place");
    pause_for(slot, slot->work->options.pause_ms > TRY_MS ? slot->work->options.pause_ms : TRY_MS);
    return true;
}

/* A hold that failed. Returns whether the work goes on. */
static bool take_refusal(struct slot *slot, int error)
{
    switch (error) {
    case EINTR: return find_server(slot);
    case EAGAIN: return await_place(slot);
    case ENOMSG: return false;
    case EIO: return lose(slot, "the connection ended");
    case EIDRM:
    case EINVAL:
        fail(slot, FAILED, slot->work->options.key_word, "the queue was removed");
        return false;
    default: fail(slot, FAILED, slot->work->options.key_word, strerror(error)); return false;
    }
}

/* Takes a message, and does its job. Returns whether the work goes on. */
static bool step(struct slot *slot)
{
    const struct options *options = &slot->work->options;
    int limit = options->ends_if_empty ? SYSVMSG_NOWAIT : SYSVMSG_NO_LIMIT;
    ssize_t size = sysvmsg_hold_for(slot->server, slot->queue, &slot->message,
        sizeof slot->message.body, options->type, 0, limit, (uint32_t)options->seconds);
    if (size < 0)
        return take_refusal(slot, errno);
    slot->due = options->seconds == 0 ? 0 : milliseconds() + options->seconds * 1000L;
    slot->work->waits_for_place = false;
    return is_at_work(slot) ? do_job(slot, (size_t)size) : give_back(slot);
}

void *slot_run(void *given)
{
    struct slot *slot = given;
    bool goes_on = find_server(slot);
    while (goes_on && is_at_work(slot))
        goes_on = step(slot);
    sysvmsg_close(slot->server);
    atomic_fetch_sub(&slot->work->running, 1);
    report(slot->work);
    return NULL;
}
