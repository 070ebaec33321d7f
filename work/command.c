#define _GNU_SOURCE
#include "command.h"

#include <errno.h>
#include <fcntl.h>
#include <inttypes.h>
#include <stdio.h>
#include <stdlib.h>
#include <string.h>
#include <sys/prctl.h>
#include <sys/wait.h>
#include <unistd.h>

enum { TYPE_BYTES = 40, SIGNALED = 128 };

static const char TYPE_NAME[] = "SYSVMSG_TYPE=", KEY_NAME[] = "SYSVMSG_KEY=";

/* The variables of a command. */
struct variables {
    char **list;
    char type[TYPE_BYTES];
    char *key;
};

static bool begins_with(const char *word, const char *start)
{
    return strncmp(word, start, strlen(start)) == 0;
}

/* Makes the environment: that of this process, with the type and the key. Returns 0 or an errno. */
static int make_variables(struct variables *made, const char *key, int64_t type)
{
    size_t count = 0, kept = 0;
    while (environ[count])
        count++;
    made->list = calloc(count + 3, sizeof *made->list);
    made->key = NULL;
    if (!made->list || asprintf(&made->key, "%s%s", KEY_NAME, key) < 0)
        return ENOMEM;
    for (size_t i = 0; i < count; i++)
        if (!begins_with(environ[i], TYPE_NAME) && !begins_with(environ[i], KEY_NAME))
            made->list[kept++] = environ[i];
    snprintf(made->type, sizeof made->type, "%s%" PRId64, TYPE_NAME, type);
    made->list[kept++] = made->type;
    made->list[kept] = made->key;
    return 0;
}

static void free_variables(struct variables *made)
{
    free(made->list);
    free(made->key);
}

/* Becomes the command. Only functions that a signal handler may call stand here: other threads may
 * have held a lock. If it fails, the errno goes to `failure`. */
static _Noreturn void become(char **words, char **variables, int input, int failure, pid_t parent,
    const struct signals *before)
{
    setpgid(0, 0);
    if (prctl(PR_SET_PDEATHSIG, SIGTERM) == 0 && getppid() == parent
        && dup2(input, STDIN_FILENO) == STDIN_FILENO) {
        sigaction(SIGPIPE, &before->broken_pipe, NULL);
        sigprocmask(SIG_SETMASK, &before->mask, NULL);
        execvpe(words[0], words, variables);
    }
    int error = errno;
    ssize_t count = write(failure, &error, sizeof error);
    _exit(count > 0 ? 127 : 126);
}

/* The errno for which a child did not become the command, or 0. */
static int failure_of(int failure)
{
    int error;
    ssize_t count;
    do
        count = read(failure, &error, sizeof error);
    while (count < 0 && errno == EINTR);
    return count == (ssize_t)sizeof error ? error : 0;
}

/* Forks the command, and returns 0 or an errno. */
static int start(struct command *command, char **words, char **variables, int input, int failure[2],
    const struct signals *before)
{
    pid_t parent = getpid();
    command->pid = fork();
    if (command->pid == 0)
        become(words, variables, input, failure[1], parent, before);
    int error = command->pid < 0 ? errno : 0;
    close(failure[1]);
    if (error == 0)
        error = failure_of(failure[0]);
    if (error != 0 && command->pid > 0)
        command_status(command);
    return error;
}

int command_start(struct command *command, char **words, const char *key, int64_t type,
    const struct signals *before)
{
    struct variables variables;
    int input[2], failure[2];
    if (pipe2(input, O_CLOEXEC) != 0)
        return errno;
    if (pipe2(failure, O_CLOEXEC) != 0) {
        int error = errno;
        close(input[0]);
        close(input[1]);
        return error;
    }
    int error = make_variables(&variables, key, type);
    if (error == 0)
        error = start(command, words, variables.list, input[0], failure, before);
    else
        close(failure[1]);
    free_variables(&variables);
    close(failure[0]);
    close(input[0]);
    if (error != 0)
        close(input[1]);
    command->input = input[1];
    return error;
}

void command_feed(struct command *command, const char *body, size_t size)
{
    while (size > 0) {
        ssize_t count = write(command->input, body, size);
        if (count < 0 && errno != EINTR)
            break;
        body += count > 0 ? count : 0;
        size -= count > 0 ? (size_t)count : 0;
    }
    close(command->input);
}

void command_await(const struct command *command)
{
    siginfo_t info;
    while (waitid(P_PID, (id_t)command->pid, &info, WEXITED | WNOWAIT) != 0 && errno == EINTR)
        continue;
}

bool command_has_ended(pid_t command)
{
    siginfo_t info = {0};
    return waitid(P_PID, (id_t)command, &info, WEXITED | WNOWAIT | WNOHANG) == 0
           && info.si_pid == command;
}

int command_status(const struct command *command)
{
    int status;
    pid_t found;
    do
        found = waitpid(command->pid, &status, 0);
    while (found < 0 && errno == EINTR);
    if (found < 0)
        return SIGNALED - 1;
    return WIFSIGNALED(status) ? SIGNALED + WTERMSIG(status) : WEXITSTATUS(status);
}
