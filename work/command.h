/* The command that does a job: one process per job, in a process group of its own. */
#ifndef COMMAND_H
#define COMMAND_H

#include <signal.h>
#include <stdbool.h>
#include <stdint.h>
#include <sys/types.h>

/* What a command inherits: the signals as they were when this process began. */
struct signals {
    sigset_t mask;
    struct sigaction broken_pipe;
};

struct command {
    pid_t pid;
    int input; /* where its standard input is written to */
};

/* Starts a command for a message of a type. It receives SIGTERM if the calling thread ends first.
 * Returns 0 or an errno. */
int command_start(struct command *command, char **words, const char *key, int64_t type,
    const struct signals *before);

/* Writes its standard input, and closes it. A command that does not read it is no error. */
void command_feed(struct command *command, const char *body, size_t size);

/* Waits until it has ended, and leaves its status to command_status. */
void command_await(const struct command *command);

/* Whether it has ended. It leaves the status too. */
bool command_has_ended(pid_t command);

/* Its status, as a shell has it: 0 to 255, or 128 and the number of the signal that ended it. */
int command_status(const struct command *command);

#endif
