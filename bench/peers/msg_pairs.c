/* The kernel's own msgsnd and msgrcv, as the service is measured beside them.
 *   msg_pairs pairs SIZE COUNT [N]  COUNT pairs of SIZE bytes by each of N processes on a queue of its own, 1 by default
 *   msg_pairs rounds COUNT          COUNT rounds of two processes over two queues, of 64 bytes
 * It prints the nanoseconds of all of them. It ends with status 1 if a call fails.
 */
#include <stdio.h>
#include <stdlib.h>
#include <string.h>
#include <sys/ipc.h>
#include <sys/msg.h>
#include <unistd.h>

#include "pairs.h"

struct message {
    long mtype;
    char mtext[8192];
};

static struct message text = {1, {0}};
static struct message out;

static int own_pairs(size_t size, long count)
{
    int id = msgget(IPC_PRIVATE, IPC_CREAT | 0600);
    int refused = id < 0;
    for (long i = 0; i < count && !refused; i++)
        refused = msgsnd(id, &text, size, 0) < 0 || msgrcv(id, &out, sizeof out.mtext, 0, 0) < 0;
    msgctl(id, IPC_RMID, NULL);
    return refused;
}

static int play(int hears, int says, int serves, long count)
{
    if (serves && msgsnd(says, &text, 64, 0) < 0)
        return 1;
    for (long i = 0; i < count; i++) {
        if (msgrcv(hears, &out, sizeof out.mtext, 0, 0) < 0)
            return 1;
        if (!(serves && i + 1 == count) && msgsnd(says, &text, 64, 0) < 0)
            return 1;
    }
    return 0;
}

static int rounds(long count)
{
    int ping = msgget(IPC_PRIVATE, IPC_CREAT | 0600);
    int pong = msgget(IPC_PRIVATE, IPC_CREAT | 0600);
    int refused = ping < 0 || pong < 0;
    int status = 1;
    long long start = now();
    pid_t child = fork();
    if (child == 0)
        _exit(play(ping, pong, 0, count));
    refused = refused || child < 0 || play(pong, ping, 1, count);
    waitpid(child, &status, 0);
    printf("%lld\n", now() - start);
    msgctl(ping, IPC_RMID, NULL);
    msgctl(pong, IPC_RMID, NULL);
    return refused || status != 0;
}

int main(int count, char **words)
{
    if ((count == 4 || count == 5) && strcmp(words[1], "pairs") == 0)
        return pairs(strtoul(words[2], NULL, 10), strtol(words[3], NULL, 10), count == 5 ? strtol(words[4], NULL, 10) : 1);
    if (count == 3 && strcmp(words[1], "rounds") == 0)
        return rounds(strtol(words[2], NULL, 10));
    fputs("msg_pairs pairs SIZE COUNT [N], or rounds COUNT\n", stderr);
    return 2;
}
