#define _GNU_SOURCE
#include "run.h"

#include <errno.h>
#include <fcntl.h>
#include <limits.h>
#include <poll.h>
#include <signal.h>
#include <stdbool.h>
#include <stdio.h>
#include <stdlib.h>
#include <string.h>
#include <sys/prctl.h>
#include <sys/signalfd.h>
#include <sys/stat.h>
#include <sys/wait.h>
#include <time.h>
#include <unistd.h>

#include "children.h"
#include "notify.h"
#include "relay.h"

enum {
    NOT_STARTED = 125,    /* the status if a command could not be run */
    BY_SIGNAL = 128,      /* and the number of the signal that ended a process */
    APART_MS = 200,       /* signals that are closer together are one */
    LAST_LINES_MS = 1000, /* how long the last lines may wait for room on standard error */
    PARENT_END = SIGUSR1, /* reports that a thread of the parent ended, with --with */
    MOST_OTHERS = 64      /* sockets of --as */
};

/* A file that the server made. */
struct made {
    const char *path; /* or NULL */
    int file;         /* a descriptor that keeps its number from another file, or -1 */
};

struct run {
    const struct request *request;
    struct state *state;
    struct signals before;
    int signals;
    pid_t parent;          /* 0: it is outside this process's namespace */
    pid_t server, command; /* 0: it has ended, or was not started */
    int server_status;
    int status; /* of the command, once it has ended, and else -1 */
    int input;  /* of the server, which shuts down once it is closed */
    bool is_serving;
    struct made socket, stats;
    struct made others[MOST_OTHERS]; /* the sockets of --as */
    int stopped_by;                  /* the signal that ended the run, or 0 */
    long ends_since;                 /* in milliseconds, once `input` is closed */
    bool is_killed;
    struct relay relay;
};

static _Noreturn void fail(int status, const char *what)
{
    fprintf(stderr, "sysvmsg-serve: %s: %s\n", what, strerror(errno));
    exit(status);
}

static int exit_status(int status)
{
    return WIFSIGNALED(status) ? BY_SIGNAL + WTERMSIG(status) : WEXITSTATUS(status);
}

static long milliseconds(void)
{
    struct timespec now;
    clock_gettime(CLOCK_MONOTONIC, &now);
    return now.tv_sec * 1000L + now.tv_nsec / 1000000L;
}

/* Ends the server at once. */
static void kill_server(struct run *run)
{
    run->is_killed = true;
    if (run->server > 0)
        kill(run->server, SIGKILL);
    state_kill(run->state);
}

/* Has the server shut down gracefully. */
static void end_server(struct run *run)
{
    if (run->input < 0)
        return;
    notify("STOPPING=1");
    close(run->input);
    run->input = -1;
    run->ends_since = milliseconds();
    state_stop(run->state);
}

/* Shuts the server down, or ends it at once if that has begun. Some programs send one signal twice:
 * to this process, and to its group. */
static void stop(struct run *run, int number)
{
    bool ends = run->input < 0;
    if (ends && milliseconds() - run->ends_since < APART_MS)
        return;
    run->stopped_by = number;
    if (ends)
        kill_server(run);
    else
        end_server(run);
}

/* Takes a signal to end. If a command runs, that decides: it gets the signal, unless it comes from
 * the terminal, which signals the command too. */
static void take_end(struct run *run, const struct signalfd_siginfo *signal)
{
    if (run->command == 0)
        stop(run, (int)signal->ssi_signo);
    else if (signal->ssi_code <= 0)
        kill(run->command, (int)signal->ssi_signo);
}

/* A thread of the parent has ended. If it was the last one, all ends at once. A server that does
 * not serve yet is shut down, because only its line reports which socket file it made, and so is
 * one whose queues are to be saved. */
static void take_parent_end(struct run *run)
{
    if (run->parent == 0 || getppid() == run->parent)
        return;
    if (run->command > 0)
        kill(run->command, SIGTERM);
    run->command = 0;
    run->stopped_by = SIGTERM;
    if (run->socket.file < 0 || run->state->file)
        end_server(run);
    else
        kill_server(run);
}

static void note_server_end(struct run *run, int status)
{
    run->server = 0;
    run->server_status = status;
    run->state->is_over = true;
    if (run->is_killed || (WIFEXITED(status) && WEXITSTATUS(status) == 0))
        return;
    if (WIFSIGNALED(status))
        dprintf(
            STDERR_FILENO, "sysvmsg-serve: the server was ended by signal %d\n", WTERMSIG(status));
    /* The calls of the command fail from now on. */
    if (run->command > 0)
        kill(run->command, SIGTERM);
}

/* With --state: the server goes on once all is loaded, and ends if that has failed. */
static void take_outcome(struct run *run, enum outcome outcome)
{
    if (outcome == STATE_FAILS)
        end_server(run);
    else if (outcome == STATE_GOES && run->input >= 0 && write(run->input, "\n", 1) != 1)
        dprintf(STDERR_FILENO, "sysvmsg-serve: write: %s\n", strerror(errno));
}

/* Takes the status of each child that has ended. Process 1 has children that it did not start. */
static void reap(struct run *run)
{
    int status;
    pid_t child;
    while ((child = waitpid(-1, &status, WNOHANG)) > 0) {
        enum outcome outcome = state_reap(run->state, child, status);
        if (outcome != STATE_NOT_MINE) {
            take_outcome(run, outcome);
        } else if (child == run->server) {
            note_server_end(run, status);
        } else if (child == run->command) {
            run->command = 0;
            run->status = exit_status(status);
            end_server(run);
        }
    }
}

static void take_signal(struct run *run)
{
    struct signalfd_siginfo signal;
    if (read(run->signals, &signal, sizeof signal) != sizeof signal)
        return;
    switch (signal.ssi_signo) {
    case SIGCHLD: reap(run); break;
    case PARENT_END: take_parent_end(run); break;
    default: take_end(run, &signal);
    }
}

static void keep(struct made *made)
{
    if (made->path)
        made->file = open(made->path, O_PATH | O_NOFOLLOW | O_CLOEXEC);
}

/* The server listens now. */
static void take_serving(struct run *run)
{
    run->is_serving = true;
    keep(&run->socket);
    keep(&run->stats);
    for (size_t i = 0; i < MOST_OTHERS; i++)
        keep(&run->others[i]);
    users_give(&run->request->users);
    if (run->stopped_by != 0)
        return;
    notify("READY=1");
    if (!run->request->command)
        return;
    pid_t child = start_command(run->request->command, &run->before);
    if (child > 0) {
        run->command = child;
    } else {
        dprintf(STDERR_FILENO, "sysvmsg-serve: fork: %s\n", strerror(errno));
        end_server(run);
    }
}

/* With a command, only the errors of the server are shown. */
static void take_lines(struct run *run)
{
    enum line line;
    while ((line = relay_front(&run->relay)) != NO_LINE) {
        if (line == SERVING_LINE && !run->is_serving)
            take_serving(run);
        if (line == ALONE_LINE || (run->request->command && line != OTHER_LINE))
            relay_drop(&run->relay);
        else
            relay_choose(&run->relay);
    }
}

/* Waits for something to happen, and takes it. What the server said before it ended comes first. */
static void step(struct run *run)
{
    bool has_ended = run->server <= 0 && run->command <= 0 && run->state->child <= 0;
    struct pollfd events[] = {
        {.fd = relay_input(&run->relay), .events = POLLIN},
        {.fd = relay_output(&run->relay), .events = POLLOUT},
        {.fd = run->signals, .events = POLLIN},
        {.fd = state_news(run->state), .events = POLLIN},
    };
    int limit = has_ended ? LAST_LINES_MS : state_limit(run->state);
    int ready = poll(events, sizeof events / sizeof *events, limit);
    if (has_ended && (ready == 0 || run->is_killed))
        relay_end(&run->relay);
    if (ready == 0 || events[3].revents)
        take_outcome(run, state_step(run->state, &run->before));
    if (ready <= 0)
        return;
    if (events[0].revents)
        relay_read(&run->relay);
    if (events[1].revents)
        relay_write(&run->relay);
    take_lines(run);
    if (events[2].revents)
        take_signal(run);
}

/* Removes a socket file, unless another is there by now. */
static void remove_made(const struct made *made)
{
    struct stat own, found;
    if (made->file >= 0 && fstat(made->file, &own) == 0 && lstat(made->path, &found) == 0
        && own.st_dev == found.st_dev && own.st_ino == found.st_ino)
        unlink(made->path);
}

/* What follows an option of the server in its word, as "" for --drain and "=3" for --drain=3, or
 * NULL if it is not among the words. `word` is moved to it. */
static const char *find_option(char ***word, const char *name)
{
    size_t length = strlen(name);
    for (; **word && strcmp(**word, "--") != 0; (*word)++) {
        if (strncmp(**word, name, length) != 0)
            continue;
        const char *rest = **word + length;
        if (*rest == '\0' || *rest == '=')
            return rest;
    }
    return NULL;
}

static bool has_option(char **options, const char *name)
{
    return find_option(&options, name) != NULL;
}

/* The value of an option of the server, or NULL. */
static const char *value_of(char **options, const char *name)
{
    const char *rest = find_option(&options, name);
    if (!rest)
        return NULL;
    return *rest == '=' ? rest + 1 : options[1];
}

/* Notes the sockets of --as, each of which is what comes before the last = of its value. */
static void note_others(struct run *run)
{
    char **word = run->request->options;
    for (size_t i = 0; i < MOST_OTHERS; i++)
        run->others[i] = (struct made){NULL, -1};
    const char *rest;
    for (size_t i = 0; i < MOST_OTHERS && (rest = find_option(&word, "--as")); i++) {
        const char *value = *rest == '=' ? rest + 1 : *++word;
        const char *end = value ? strrchr(value, '=') : NULL;
        if (!end)
            return;
        run->others[i].path = strndup(value, (size_t)(end - value));
        if (!run->others[i].path)
            fail(NOT_STARTED, "strndup");
        word++;
    }
}

/* The words of the server's command line. */
static char **server_words(const struct request *request)
{
    size_t count = 0;
    while (request->options[count])
        count++;
    char **words = calloc(count + 10, sizeof *words);
    if (!words)
        fail(NOT_STARTED, "calloc");
    char **next = words;
    *next++ = "sysvmsg";
    *next++ = "serve";
    *next++ = (char *)request->path;
    *next++ = "--until-eof";
    if (!has_option(request->options, "--drain")) {
        *next++ = "--drain";
        *next++ = "5";
    }
    if (!has_option(request->options, "--blocks")) {
        *next++ = "--blocks";
        *next++ = "65536";
    }
    if (!has_option(request->options, "--hold"))
        *next++ = "--hold";
    memcpy(next, request->options, count * sizeof *words);
    return words;
}

/* Starts the server. Its input is a pipe that only this process can close. */
static void begin_server(struct run *run)
{
    int input[2], errors[2];
    if (pipe2(input, O_CLOEXEC) != 0 || pipe2(errors, O_CLOEXEC) != 0)
        fail(NOT_STARTED, "pipe");
    const struct streams streams = {input[0], run->request->command ? errors[1] : -1, errors[1]};
    char **words = server_words(run->request);
    run->server = start_server(words, &streams, &run->before);
    if (run->server < 0)
        fail(NOT_STARTED, "fork");
    free(words);
    close(input[0]);
    close(errors[1]);
    run->input = input[1];
    run->relay.input = errors[0];
}

/* Blocks a signal unless it is ignored, as SIGINT is in a background job of a script. */
static void add_unless_ignored(sigset_t *set, int number)
{
    struct sigaction found;
    if (sigaction(number, NULL, &found) == 0 && found.sa_handler != SIG_IGN)
        sigaddset(set, number);
}

/* Takes signals from a descriptor from now on. */
static void begin_signals(struct run *run)
{
    static const struct sigaction ignore = {.sa_handler = SIG_IGN};
    sigset_t taken;
    sigemptyset(&taken);
    sigaddset(&taken, SIGTERM);
    sigaddset(&taken, SIGCHLD);
    add_unless_ignored(&taken, SIGINT);
    add_unless_ignored(&taken, SIGQUIT);
    if (run->request->command)
        sigaddset(&taken, PARENT_END);
    sigprocmask(SIG_BLOCK, &taken, &run->before.mask);
    sigaction(SIGHUP, &ignore, &run->before.hang_up);
    sigaction(SIGPIPE, &ignore, &run->before.broken_pipe);
    signal(SIGCHLD, SIG_DFL);
    run->signals = signalfd(-1, &taken, SFD_CLOEXEC);
    if (run->signals < 0)
        fail(NOT_STARTED, "signalfd");
}

/* Has the system report the end of the parent, which may have ended by now. */
static void watch_parent(struct run *run)
{
    run->parent = getppid();
    if (run->parent == 0)
        return;
    prctl(PR_SET_PDEATHSIG, PARENT_END);
    if (getppid() != run->parent)
        exit(NOT_STARTED);
}

/* Sets SYSVMSG_PATH, which has to name the socket from any directory. */
static void export_path(const char *path)
{
    char directory[PATH_MAX], *absolute;
    if (*path == '/') {
        setenv("SYSVMSG_PATH", path, 1);
        return;
    }
    if (!getcwd(directory, sizeof directory))
        fail(NOT_STARTED, "getcwd");
    if (asprintf(&absolute, "%s/%s", directory, path) < 0)
        fail(NOT_STARTED, "asprintf");
    setenv("SYSVMSG_PATH", absolute, 1);
    free(absolute);
}

/* The status to exit with, but for what --state has to say. */
static int status_of(const struct run *run)
{
    if (run->status >= 0)
        return run->status;
    if (run->stopped_by != 0 && (run->is_killed || run->request->command))
        return BY_SIGNAL + run->stopped_by;
    /* (a server that has refused its options says why) */
    int status = exit_status(run->server_status);
    return run->request->command && status != NOT_UNDERSTOOD ? NOT_STARTED : status;
}

/* The status to exit with. */
static int ended(const struct run *run)
{
    int status = status_of(run);
    if (status != 0 || !run->state->has_failed)
        return status;
    return run->request->command ? NOT_STARTED : 1;
}

/* Makes the directories of the users, and takes the file of the state. */
static void begin_files(struct request *request)
{
    char why[WHY_BYTES];
    if (state_begin(&request->state, why) && users_make(&request->users, why))
        return;
    users_remove(&request->users);
    state_end(&request->state);
    fprintf(stderr, "sysvmsg-serve: %s\n", why);
    exit(request->command ? NOT_STARTED : 1);
}

int run(struct request *request)
{
    struct run state = {
        .request = request,
        .state = &request->state,
        .input = -1,
        .socket = {request->path, -1},
        .stats = {value_of(request->options, "--stats"), -1},
        .status = -1,
    };
    note_others(&state);
    begin_signals(&state);
    if (request->command) {
        const char *own = users_own(&request->users);
        watch_parent(&state);
        export_path(own && has_option(request->options, "--no-main") ? own : request->path);
    } else {
        notify_begin();
    }
    begin_files(request);
    begin_server(&state);
    while (state.server > 0 || state.command > 0 || request->state.child > 0
           || !relay_is_over(&state.relay))
        step(&state);
    state_end(&request->state);
    remove_made(&state.socket);
    remove_made(&state.stats);
    for (size_t i = 0; i < MOST_OTHERS; i++)
        remove_made(&state.others[i]);
    users_remove(&request->users);
    return ended(&state);
}
