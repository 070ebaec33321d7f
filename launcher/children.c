#define _GNU_SOURCE
#include "children.h"

#include <errno.h>
#include <fcntl.h>
#include <limits.h>
#include <stdio.h>
#include <stdlib.h>
#include <string.h>
#include <sys/prctl.h>
#include <sys/resource.h>
#include <unistd.h>

/* Forks. The child gets a signal once this process has ended, even if it ends during the fork. */
static pid_t fork_bound(int signal_at_end)
{
    pid_t parent = getpid();
    pid_t child = fork();
    if (child == 0 && (prctl(PR_SET_PDEATHSIG, signal_at_end) != 0 || getppid() != parent))
        _exit(NOT_EXECUTABLE);
    return child;
}

/* Ends a child whose program could not be executed. */
static _Noreturn void give_up(const char *name)
{
    int error = errno;
    dprintf(STDERR_FILENO, "sysvmsg-serve: %s: %s\n", name, strerror(error));
    _exit(error == ENOENT ? NOT_FOUND : NOT_EXECUTABLE);
}

/* The server ends by its input or is killed, and what loads or saves ends by itself. A signal that
 * reaches both processes, such as that of Ctrl-C, has no effect on it. SIGHUP is ignored here
 * already. */
static void ignore_ends(void)
{
    static const int ends[] = {SIGTERM, SIGINT, SIGQUIT};
    for (size_t i = 0; i < sizeof ends / sizeof *ends; i++)
        signal(ends[i], SIG_IGN);
}

/* The soft limit decides how many clients the server serves at once. */
static void raise_descriptor_limit(void)
{
    struct rlimit limit;
    if (getrlimit(RLIMIT_NOFILE, &limit) == 0) {
        limit.rlim_cur = limit.rlim_max;
        setrlimit(RLIMIT_NOFILE, &limit);
    }
}

void execute_server_program(char **words)
{
    char path[PATH_MAX];
    ssize_t length = readlink("/proc/self/exe", path, sizeof path);
    if (length > 0 && length < (ssize_t)sizeof path) {
        path[length] = '\0';
        char *name = strrchr(path, '/') + 1;
        if (name + strlen(words[0]) < path + sizeof path) {
            strcpy(name, words[0]);
            execv(path, words);
        }
    }
    execvp(words[0], words);
}

pid_t start_server(char **words, const struct streams *streams, const struct signals *before)
{
    pid_t child = fork_bound(SIGKILL);
    if (child != 0)
        return child;
    dup2(streams->input, STDIN_FILENO);
    if (streams->output >= 0)
        dup2(streams->output, STDOUT_FILENO);
    dup2(streams->errors, STDERR_FILENO);
    raise_descriptor_limit();
    ignore_ends();
    sigaction(SIGPIPE, &before->broken_pipe, NULL);
    sigprocmask(SIG_SETMASK, &before->mask, NULL);
    execute_server_program(words);
    give_up(words[0]);
}

pid_t start_tool(char **words, const struct tool *tool, const struct signals *before)
{
    pid_t child = fork_bound(SIGKILL);
    if (child != 0)
        return child;
    int none = open("/dev/null", O_RDWR | O_CLOEXEC);
    dup2(tool->input >= 0 ? tool->input : none, STDIN_FILENO);
    dup2(tool->output >= 0 ? tool->output : none, STDOUT_FILENO);
    if (tool->errors >= 0)
        dup2(tool->errors, STDERR_FILENO);
    ignore_ends();
    sigaction(SIGPIPE, &before->broken_pipe, NULL);
    sigprocmask(SIG_SETMASK, &before->mask, NULL);
    execute_server_program(words);
    give_up(words[0]);
}

pid_t start_command(char **words, const struct signals *before)
{
    pid_t child = fork_bound(SIGTERM);
    if (child != 0)
        return child;
    sigaction(SIGHUP, &before->hang_up, NULL);
    sigaction(SIGPIPE, &before->broken_pipe, NULL);
    sigprocmask(SIG_SETMASK, &before->mask, NULL);
    execvp(words[0], words);
    give_up(words[0]);
}
