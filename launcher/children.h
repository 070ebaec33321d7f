/* The processes that are started: the server, with --with a command, and with --state what loads
 * and saves. Each gets a signal if this process ends first, even if that is killed. */
#ifndef CHILDREN_H
#define CHILDREN_H

#include <signal.h>
#include <sys/types.h>

/* The status if a program could not be executed. */
enum { NOT_EXECUTABLE = 126, NOT_FOUND = 127 };

/* What a command inherits: the signals as they were when this process began. */
struct signals {
    sigset_t mask;
    struct sigaction hang_up, broken_pipe;
};

/* The descriptors of the server. */
struct streams {
    int input;
    int output; /* -1: that of this process */
    int errors;
};

/* The descriptors of a tool that runs beside the server. */
struct tool {
    int input;  /* -1: none */
    int output; /* -1: none */
    int errors; /* -1: that of this process */
};

/* Start a process: its words, from its name on, end with a null pointer. Each returns the process,
 * or -1 with errno set. */
pid_t start_server(char **words, const struct streams *streams, const struct signals *before);
pid_t start_tool(char **words, const struct tool *tool, const struct signals *before);
pid_t start_command(char **words, const struct signals *before);

/* Executes the server's program, of the name that words[0] is: the one beside this program, or else
 * the one that PATH finds. It returns if there is none, with errno set. */
void execute_server_program(char **words);

#endif
