/* POSIX message queues, as the service is measured beside them.
 *   mq_pairs pairs SIZE COUNT [N]   COUNT pairs of SIZE bytes by each of N processes on a queue of its own, 1 by default
 * It prints the nanoseconds of all of them. It ends with status 1 if a call fails.
 */
#include <fcntl.h>
#include <mqueue.h>
#include <stdio.h>
#include <stdlib.h>
#include <string.h>
#include <unistd.h>

#include "pairs.h"

static char text[8192];
static char out[8192];

static int own_pairs(size_t size, long count)
{
    struct mq_attr room = {.mq_maxmsg = 10, .mq_msgsize = sizeof text};
    char name[64];
    snprintf(name, sizeof name, "/mq_pairs.%ld", (long)getpid());
    mqd_t queue = mq_open(name, O_RDWR | O_CREAT | O_EXCL, 0600, &room);
    if (queue == (mqd_t)-1)
        return 1;
    mq_unlink(name);
    int failed = 0;
    for (long i = 0; i < count && !failed; i++)
        failed = mq_send(queue, text, size, 1) < 0 || mq_receive(queue, out, sizeof out, NULL) < 0;
    mq_close(queue);
    return failed;
}

int main(int count, char **words)
{
    if ((count == 4 || count == 5) && strcmp(words[1], "pairs") == 0)
        return pairs(strtoul(words[2], NULL, 10), strtol(words[3], NULL, 10), count == 5 ? strtol(words[4], NULL, 10) : 1);
    fputs("mq_pairs pairs SIZE COUNT [N]\n", stderr);
    return 2;
}
