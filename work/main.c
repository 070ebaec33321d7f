/* sysvmsg-work: holds messages of a queue, and runs a command for each. */
#include <fcntl.h>
#include <stdio.h>
#include <stdlib.h>
#include <string.h>
#include <unistd.h>

#include "options.h"
#include "run.h"
#include "slot.h"

static const char usage[] = "usage: sysvmsg-work PATH KEY [OPTION ...] -- COMMAND [ARGUMENT ...]\n"
                            "options: --jobs N, --type N, --upto N, --seconds N, --pause SECONDS,\n"
                            "         --failed KEY2, --until-empty, --create, --retry SECONDS\n";

static const char help[] =
    "\n"
    "Runs COMMAND for each message of a queue, with the body on its standard input,\n"
    "and its type and the key in SYSVMSG_TYPE and SYSVMSG_KEY. The message is gone\n"
    "once COMMAND ends with status 0. Otherwise it comes back, also if this process\n"
    "or COMMAND is killed. The server needs --hold, which sysvmsg-serve sets.\n"
    "\n"
    "  --jobs N         Runs up to N commands at once, 1 to 256 [default: 1]\n"
    "  --type N         Takes the first message of type N\n"
    "  --upto N         Takes the first message of the lowest type that is at most N\n"
    "  --seconds N      Ends COMMAND after N seconds; its message comes back then\n"
    "  --pause SECONDS  Keeps a message that failed that long [default: 1]\n"
    "  --failed KEY2    Sends a message that failed to the queue of KEY2 instead\n"
    "  --until-empty    Ends once the queue has no such message\n"
    "  --create         Creates the queues if there are none\n"
    "  --retry SECONDS  Waits that long for a server, even if it is lost [default: 0]\n"
    "  -h, --help       Print help\n"
    "  -V, --version    Print version\n"
    "\n"
    "SIGTERM and SIGINT let the commands end. A second signal ends them, and gives\n"
    "their messages back.\n"
    "\n"
    "Example:\n"
    "  $ sysvmsg-work ./q 7 --create --jobs 4 -- sh -c 'convert-image \"$(cat)\"'\n";

/* A descriptor that is opened later is none of the standard streams. */
static void fill_standard_streams(void)
{
    int fd;
    do
        fd = open("/dev/null", O_RDWR);
    while (fd >= 0 && fd <= STDERR_FILENO);
    if (fd >= 0)
        close(fd);
}

static bool is_one_of(const char *word, const char *brief, const char *whole)
{
    return strcmp(word, brief) == 0 || strcmp(word, whole) == 0;
}

int main(int count, char **words)
{
    struct options options;
    char why[WHY_BYTES];
    fill_standard_streams();
    if (count == 2 && is_one_of(words[1], "-h", "--help")) {
        fputs(usage, stdout);
        fputs(help, stdout);
        return 0;
    }
    if (count == 2 && is_one_of(words[1], "-V", "--version")) {
        puts("sysvmsg-work " VERSION);
        return 0;
    }
    if (count > 0 && options_read(words + 1, &options, why))
        return run(&options);
    fprintf(stderr, "sysvmsg-work: %s\n%s", count > 0 ? why : "a path is missing", usage);
    return NOT_UNDERSTOOD;
}
