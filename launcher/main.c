/* sysvmsg-serve: starts `sysvmsg serve`, shuts it down gracefully if this process is told to end,
 * and ends with it. With --with it runs a command on the server. */
#define _GNU_SOURCE
#include <errno.h>
#include <fcntl.h>
#include <stdbool.h>
#include <stdio.h>
#include <stdlib.h>
#include <string.h>
#include <unistd.h>

#include "children.h"
#include "options.h"
#include "run.h"

static const char usage[] =
    "usage: sysvmsg-serve PATH [OPTION ...]\n"
    "       sysvmsg-serve --with PATH [OPTION ...] -- COMMAND [ARGUMENT ...]\n";

static const char help[] =
    "\n"
    "Runs `sysvmsg serve` with these options (`sysvmsg serve --help` describes them),\n"
    "--until-eof, --hold and, unless they are given, --drain 5 and --blocks 65536.\n"
    "SIGTERM or SIGINT shuts it down gracefully: it refuses new clients, waits for its\n"
    "sessions, at most as long as --drain states, prints its counts and removes its\n"
    "sockets. A second signal ends it at once. It reports to systemd (Type=notify) and\n"
    "can be process 1 of a container. The limit of open files of the server is the\n"
    "hard limit, so it serves more clients at once.\n"
    "\n"
    "With --state FILE the queues are loaded from FILE before the server serves anyone,\n"
    "and saved to it when it is shut down: a restart loses no message.\n"
    "\n"
    "With --with it runs COMMAND once the server accepts connections, with SYSVMSG_PATH\n"
    "set to the absolute path, and shuts the server down after it. The exit status is\n"
    "that of COMMAND.\n"
    "\n"
    "Examples:\n"
    "  $ sysvmsg-serve ./q --mode 660\n"
    "  $ sysvmsg-serve --with ./q -- make test\n";

static void print_usage(FILE *stream)
{
    fputs(usage, stream);
    options_print(stream);
}

static _Noreturn void refuse(const char *why)
{
    fprintf(stderr, "sysvmsg-serve: %s\n", why);
    print_usage(stderr);
    exit(NOT_UNDERSTOOD);
}

/* A descriptor that is opened later is none of the standard streams. */
static void fill_standard_streams(void)
{
    int fd;
    do
        fd = open("/dev/null", O_RDWR);
    while (fd >= 0 && fd <= STDERR_FILENO);
    if (fd >= 0)
        close(fd);
}

/* Reads a command line that begins with --with, and cuts off its command. */
static struct request read_with(char **words)
{
    struct request request = {.path = words[0]};
    if (!request.path)
        refuse("--with needs a path");
    char **end = words + 1;
    while (*end && strcmp(*end, "--") != 0)
        end++;
    if (!*end || !end[1])
        refuse("--with needs -- and a command");
    *end = NULL;
    request.options = words + 1;
    request.command = end + 1;
    return request;
}

static bool is_one_of(const char *word, const char *brief, const char *whole)
{
    return strcmp(word, brief) == 0 || strcmp(word, whole) == 0;
}

static struct request read_words(char **words)
{
    struct request request;
    if (!*words)
        refuse("a path is missing");
    if (strcmp(*words, "--with") == 0)
        request = read_with(words + 1);
    else
        request = (struct request){.path = words[0], .options = words + 1};
    if (*request.path == '\0' || *request.path == '-')
        refuse("the path comes first, and does not begin with -");
    char why[WHY_BYTES];
    if (!options_are_valid(request.options, why)
        || !users_take(&request.options, &request.users, why)
        || !state_take(&request.options, &request.state, why))
        refuse(why);
    return request;
}

int main(int count, char **words)
{
    fill_standard_streams();
    if (count == 2 && is_one_of(words[1], "-h", "--help")) {
        print_usage(stdout);
        fputs(help, stdout);
        return 0;
    }
    if (count == 2 && is_one_of(words[1], "-V", "--version")) {
        execute_server_program((char *[]){"sysvmsg", "--version", NULL});
        fprintf(stderr, "sysvmsg-serve: sysvmsg: %s\n", strerror(errno));
        return NOT_FOUND;
    }
    if (count == 0)
        refuse("a path is missing");
    struct request request = read_words(words + 1);
    return run(&request);
}
