/* Clients that wait for replies of their own types on one queue.
 *   replies CLIENTS TURNS
 * Each client is a process. In each turn it sends its number on one queue, and waits on a second
 * one for the reply, whose type is its own. This process receives the requests of all clients
 * before it replies to the first, so all others wait meanwhile. It ends with status 0 if each
 * client had its own reply in each turn, and no message is left. */
#include <stdbool.h>
#include <stdio.h>
#include <stdlib.h>
#include <sys/msg.h>
#include <sys/wait.h>
#include <unistd.h>

enum { ANY = 1, SECONDS = 35 };

struct text {
    int client, turn;
};

struct message {
    long type;
    struct text text;
};

static bool sends(int queue, long type, int client, int turn)
{
    struct message message = {type, {client, turn}};
    return msgsnd(queue, &message, sizeof message.text, 0) == 0;
}

static bool receives(int queue, long type, struct text *text)
{
    struct message message;
    if (msgrcv(queue, &message, sizeof message.text, type, 0) != sizeof message.text)
        return false;
    *text = message.text;
    return type == 0 || message.type == type;
}

/* The types of replies begin with 1. */
static bool asks(int requests, int replies, int client, int turns)
{
    struct text text;
    for (int turn = 0; turn < turns; turn++)
        if (!sends(requests, ANY, client, turn) || !receives(replies, client + 1, &text)
            || text.client != client || text.turn != turn)
            return false;
    return true;
}

/* Replies to the last request first. */
static bool serves(int requests, int replies, int clients, struct text *asked, int turns)
{
    for (int turn = 0; turn < turns; turn++) {
        for (int i = 0; i < clients; i++)
            if (!receives(requests, 0, &asked[i]) || asked[i].turn != turn)
                return false;
        for (int i = clients; i-- > 0;)
            if (!sends(replies, asked[i].client + 1, asked[i].client, turn))
                return false;
    }
    return true;
}

static bool is_empty(int queue)
{
    struct msqid_ds told;
    return msgctl(queue, IPC_STAT, &told) == 0 && told.msg_qnum == 0;
}

/* Waits for all children. Returns whether each succeeded. */
static bool all_succeed(int clients)
{
    bool succeed = true;
    for (int i = 0; i < clients; i++) {
        int status;
        succeed = wait(&status) > 0 && status == 0 && succeed;
    }
    return succeed;
}

int main(int count, char **words)
{
    if (count != 3)
        return 2;
    int clients = atoi(words[1]);
    int turns = atoi(words[2]);
    struct text *asked = calloc(clients, sizeof *asked);
    int requests = msgget(IPC_PRIVATE, IPC_CREAT | 0600);
    int replies = msgget(IPC_PRIVATE, IPC_CREAT | 0600);
    bool right = asked && requests >= 0 && replies >= 0;
    for (int client = 0; client < clients && right; client++) {
        pid_t child = fork();
        if (child == 0) {
            alarm(SECONDS);
            _exit(!asks(requests, replies, client, turns));
        }
        right = child > 0;
    }
    alarm(SECONDS);
    right = right && serves(requests, replies, clients, asked, turns);
    if (!right)
        fputs("a request or a reply is wrong\n", stderr);
    /* The removals end what still waits. */
    right = right && all_succeed(clients) && is_empty(requests) && is_empty(replies);
    msgctl(requests, IPC_RMID, NULL);
    msgctl(replies, IPC_RMID, NULL);
    return !right;
}
