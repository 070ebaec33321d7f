/* Asserts what POSIX.1-2017 says of msgget, msgsnd, msgrcv and msgctl, sentence by sentence.
 *   posix kernel    on the kernel's queues
 *   posix server    through libsysvmsg_preload.so, and what the server's rules change is asserted
 *                   in its place
 * It prints a line for each sentence, and ends with status 1 if one doesn't hold. What asks for two
 * users is skipped unless root runs it, and what asks for a capability if root lacks that. */
#define _GNU_SOURCE
#include <errno.h>
#include <grp.h>
#include <limits.h>
#include <linux/capability.h>
#include <signal.h>
#include <stdbool.h>
#include <stdio.h>
#include <string.h>
#include <sys/msg.h>
#include <sys/wait.h>
#include <time.h>
#include <unistd.h>

enum { USER = 1000, OTHER = 2000, LIMIT = 16384, TEXT = 8192, TOO_LONG = 1 };

struct message {
    long type;
    char text[TEXT + TOO_LONG];
};

static struct message out, in;
static bool on_server;
static int failed;

static void says(const char *sentence, bool holds)
{
    printf("%s posix on the %s, %s%s\n", holds ? "ok" : "FAILED", on_server ? "server" : "kernel",
        sentence, holds ? "" : ": it doesn't hold");
    failed |= !holds;
}

static void skip(const char *what, const char *why)
{
    printf("skipped posix on the %s, %s: %s\n", on_server ? "server" : "kernel", what, why);
}

/* A sentence that the server's rules change: what holds on the kernel, and what holds instead on
 * the server. */
static void changed(const char *sentence, bool holds, const char *instead, bool holds_instead)
{
    char line[300];
    snprintf(line, sizeof line, on_server ? "%s (changed: %s)" : "%s", sentence, instead);
    says(line, on_server ? holds_instead : holds);
}

/* Whether a time is one of now, and since `before`. */
static bool is_now(time_t told, time_t before) { return told >= before && told <= time(NULL); }

/* A time that a call sets. */
static void is_timed(const char *sentence, time_t told, time_t before)
{
    changed(sentence, is_now(told, before), "it is 0 on a server without a clock",
        is_now(told, before) || told == 0);
}

static bool refused(long result, int error) { return result == -1 && errno == error; }

static int new_queue(int mode) { return msgget(IPC_PRIVATE, IPC_CREAT | mode); }

static int send(int id, long type, size_t size, int flags)
{
    out.type = type;
    return msgsnd(id, &out, size, flags);
}

static ssize_t receive(int id, size_t size, long type, int flags)
{
    memset(&in, 0, sizeof in);
    return msgrcv(id, &in, size, type, flags);
}

static struct msqid_ds stat_of(int id)
{
    struct msqid_ds told = {.msg_qnum = 12345};
    msgctl(id, IPC_STAT, &told);
    return told;
}

static void remove_queue(int id) { msgctl(id, IPC_RMID, NULL); }

/* What a child returns by its status: 0, or the errno that its act met. */
static int status_of(pid_t child)
{
    int status;
    waitpid(child, &status, 0);
    return WIFEXITED(status) ? WEXITSTATUS(status) : 255;
}

/* Does something in another process, as a user of one group and, if it isn't 0, one supplementary
 * group. */
static int as(uid_t user, gid_t group, gid_t more, int (*act)(int), int id)
{
    pid_t child = fork();
    if (child != 0)
        return status_of(child);
    if (setgroups(more != 0, &more) != 0 || setresgid(group, group, group) != 0
        || setresuid(user, user, user) != 0)
        _exit(254);
    errno = 0;
    _exit(act(id) < 0 ? errno : 0);
}

static int as_user(int user, int (*act)(int), int id)
{
    return as((uid_t)user, (gid_t)user, 0, act, id);
}

/* Starts a child that does something after so many milliseconds. */
static pid_t after(unsigned milliseconds, int (*act)(int), int id)
{
    pid_t child = fork();
    if (child != 0)
        return child;
    usleep(milliseconds * 1000);
    errno = 0;
    _exit(act(id) < 0 ? errno : 0);
}

/* After a quarter of a second, during the caller's wait. */
static pid_t soon(int (*act)(int), int id) { return after(250, act, id); }

/* Does something in another process of the same user. */
static int in_child(int (*act)(int), int id) { return status_of(after(0, act, id)); }

static int act_send(int id) { return send(id, 3, 4, IPC_NOWAIT); }
static int act_send_two(int id) { return send(id, 9, 1, 0) + usleep(50000) + act_send(id); }
static int act_send_no_type(int id) { return send(id, 0, 4, IPC_NOWAIT); }
static int act_send_too_long(int id) { return send(id, 1, TEXT + TOO_LONG, IPC_NOWAIT); }
static int act_send_long(int id) { return send(id, 3, TEXT, 0); }
static int act_receive(int id) { return (int)receive(id, TEXT, 0, IPC_NOWAIT); }
static int act_wait(int id) { return (int)receive(id, TEXT, -8, 0); }
static int act_remove(int id) { return msgctl(id, IPC_RMID, NULL); }
static int act_stat(int id) { return msgctl(id, IPC_STAT, &(struct msqid_ds){.msg_qnum = 0}); }
static int act_signal(int id) { return id + kill(getppid(), SIGALRM) - id; }

/* What act_get, act_set and act_command are to ask for. */
static int asked_flags, asked_command;
static struct msqid_ds asked_set;

static int act_get(int key) { return msgget(key, asked_flags); }
static int act_set(int id) { return msgctl(id, IPC_SET, &asked_set); }

static int act_command(int id)
{
    return msgctl(id, asked_command, &(struct msqid_ds){.msg_qnum = 0});
}

static int act_make(int key)
{
    int id = msgget(key, IPC_CREAT | 0604);
    struct msqid_ds told = stat_of(id);
    errno = ERANGE;
    return told.msg_perm.uid == geteuid() && told.msg_perm.cuid == geteuid()
                   && told.msg_perm.gid == getegid() && told.msg_perm.cgid == getegid()
                   && (told.msg_perm.mode & 0777) == 0604
               ? id
               : -1;
}

/* Gets a queue with these flags as another user. */
static int get_as(int user, int key, int flags)
{
    asked_flags = flags;
    return as_user(user, act_get, key);
}

static void fill_set(uid_t user, gid_t group, int mode, unsigned long qbytes)
{
    asked_set = (struct msqid_ds){.msg_qbytes = qbytes};
    asked_set.msg_perm.uid = user;
    asked_set.msg_perm.gid = group;
    asked_set.msg_perm.mode = (unsigned short)mode;
}

/* Sets the user, the group and the mode of a queue, and msg_qbytes, as the calling user. */
static int set_to(int id, uid_t user, gid_t group, int mode, unsigned long qbytes)
{
    fill_set(user, group, mode, qbytes);
    return act_set(id);
}

/* As another user, to whom the queue belongs then. */
static int set_as(int user, int id, unsigned long qbytes)
{
    fill_set((uid_t)user, (gid_t)user, 0600, qbytes);
    return as_user(user, act_set, id);
}

/* Whether a user may make another one the owner. */
static bool give(int user, int id, int owner, int mode)
{
    fill_set((uid_t)owner, (gid_t)owner, mode, LIMIT);
    return as_user(user, act_set, id) == 0;
}

static int set_qbytes(int id, unsigned long qbytes)
{
    struct msqid_ds wanted = stat_of(id);
    wanted.msg_qbytes = qbytes;
    return msgctl(id, IPC_SET, &wanted);
}

/* Whether the caller has a privilege: on the kernel a capability, on the server that of user 0. */
static bool has_privilege(int capability)
{
    unsigned long long capabilities = 0;
    char line[256];
    FILE *status = fopen("/proc/self/status", "r");
    while (status && fgets(line, sizeof line, status)
           && sscanf(line, "CapEff: %llx", &capabilities) != 1)
        ;
    if (status)
        fclose(status);
    return on_server ? geteuid() == 0 : (capabilities >> capability & 1) == 1;
}

static int act_raise_soon(int id) { return set_qbytes(id, 1000); }

static void get_sentences(key_t key)
{
    time_t before = time(NULL);
    says("msgget, ENOENT if no queue has the key and IPC_CREAT is not set",
        refused(msgget(key, 0600), ENOENT) && refused(msgget(key, IPC_EXCL | 0600), ENOENT));
    int id = msgget(key, IPC_CREAT | 0640);
    says("msgget, makes a queue if no queue has the key and IPC_CREAT is set", id >= 0);
    says("msgget, returns the identifier of the key",
        msgget(key, 0) == id && msgget(key, IPC_CREAT | 0600) == id && msgget(key, IPC_EXCL) == id);
    says("msgget, EEXIST if a queue has the key and IPC_CREAT and IPC_EXCL are set",
        refused(msgget(key, IPC_CREAT | IPC_EXCL | 0600), EEXIST));
    struct msqid_ds told = stat_of(id);
    says("msgget, a new queue's owner and creator are the effective user and group",
        told.msg_perm.uid == geteuid() && told.msg_perm.cuid == geteuid()
            && told.msg_perm.gid == getegid() && told.msg_perm.cgid == getegid());
    says("msgget, its mode is the low nine bits of the flags", (told.msg_perm.mode & 0777) == 0640);
    says("msgget, its msg_qnum, msg_lspid, msg_lrpid, msg_stime and msg_rtime are 0",
        told.msg_qnum == 0 && told.msg_lspid == 0 && told.msg_lrpid == 0 && told.msg_stime == 0
            && told.msg_rtime == 0);
    is_timed("msgget, its msg_ctime is now", told.msg_ctime, before);
    says("msgget, its msg_qbytes is the system's limit", told.msg_qbytes == LIMIT);
    send(id, 1, 4, 0);
    remove_queue(id);
    int later = msgget(key, IPC_CREAT | IPC_EXCL | 0600);
    says("msgget, makes another queue for the key of a removed one, without its messages",
        later >= 0 && later != id && stat_of(later).msg_qnum == 0);
    remove_queue(later);
    says("msgget, and ENOENT once that is removed", refused(msgget(key, 0), ENOENT));
}

static void private_sentences(void)
{
    int ids[] = {msgget(IPC_PRIVATE, IPC_CREAT | 0600), msgget(IPC_PRIVATE, 0600),
        msgget(IPC_PRIVATE, IPC_CREAT | IPC_EXCL | 0600), msgget(IPC_PRIVATE, 0)};
    bool all = true;
    for (int i = 0; i < 4; i++)
        for (int j = 0; j <= i; j++)
            all = all && ids[i] >= 0 && (i == j || ids[i] != ids[j]);
    says("msgget, makes a queue for each IPC_PRIVATE, whatever the flags", all);
    for (int i = 0; i < 4; i++)
        remove_queue(ids[i]);
}

static void get_limit(void)
{
    int ids[1024], count = 0;
    if (!on_server)
        return; /* the kernel's limit is high, and belongs to others too */
    while (count < 1024 && (ids[count] = new_queue(0600)) >= 0)
        count++;
    says("msgget, ENOSPC if there are as many queues as may be", count < 1024 && errno == ENOSPC);
    while (count > 0)
        remove_queue(ids[--count]);
}

static void send_sentences(int id)
{
    time_t before = time(NULL);
    memcpy(out.text, "text", 4);
    says("msgsnd, returns 0", send(id, 7, 4, 0) == 0);
    struct msqid_ds told = stat_of(id);
    says("msgsnd, msg_qnum rises by 1, and msg_lspid is the calling process",
        told.msg_qnum == 1 && told.msg_lspid == getpid());
    is_timed("msgsnd, msg_stime is now", told.msg_stime, before);
    says("msgsnd, and nothing else changes, but Linux's msg_cbytes",
        told.msg_lrpid == 0 && told.msg_rtime == 0 && told.msg_qbytes == LIMIT
            && told.msg_cbytes == 4);
    says("msgsnd, the message has the type and the text that were sent",
        receive(id, TEXT, 0, 0) == 4 && in.type == 7 && memcmp(in.text, "text", 4) == 0);
    says("msgsnd, a message may have no text",
        send(id, 1, 0, 0) == 0 && receive(id, TEXT, 0, 0) == 0 && in.type == 1);
    says("msgsnd, a text may have every byte up to the limit",
        send(id, LONG_MAX, TEXT, 0) == 0 && receive(id, TEXT, 0, 0) == TEXT && in.type == LONG_MAX
            && memcmp(in.text, out.text, TEXT) == 0);
    says("msgsnd, EINVAL if the type is less than 1",
        refused(send(id, 0, 4, 0), EINVAL) && refused(send(id, -1, 4, 0), EINVAL));
    says("msgsnd, EINVAL if the size is above the limit or below 0",
        refused(send(id, 1, TEXT + TOO_LONG, 0), EINVAL)
            && refused(send(id, 1, (size_t)-1, 0), EINVAL));
    says("msgsnd, EINVAL if the identifier is of no queue",
        refused(send(-1, 1, 4, 0), EINVAL) && refused(send(INT_MAX, 1, 4, 0), EINVAL));
    says("msgsnd, a refused message is not sent", stat_of(id).msg_qnum == 0);
    told = stat_of(id);
    in_child(act_send, id);
    says("msgsnd, msg_lspid is the process that sent last",
        stat_of(id).msg_lspid != told.msg_lspid && stat_of(id).msg_lrpid == getpid());
}

static void full_sentences(int id)
{
    send(id, 3, TEXT, 0);
    send(id, 4, TEXT, 0);
    says("msgsnd, EAGAIN with IPC_NOWAIT if the queue's bytes are msg_qbytes",
        refused(send(id, 5, 4, IPC_NOWAIT), EAGAIN));
    /* Linux departs from the standard in the next two as the server does. */
    says("msgsnd, EAGAIN only then (changed, on Linux too: a message of no text still fits)",
        send(id, 5, 0, IPC_NOWAIT) == 0 && receive(id, 0, 5, IPC_NOWAIT) == 0);
    pid_t child = soon(act_receive, id);
    says("msgsnd, waits until there is room", send(id, 5, TEXT, 0) == 0 && status_of(child) == 0);
    says("msgsnd, and then the message is sent", receive(id, TEXT, 5, IPC_NOWAIT) == TEXT);
    send(id, 5, TEXT - 1, 0);
    says("msgsnd, EAGAIN only then (changed, on Linux too: also if the text would go past "
         "msg_qbytes)",
        refused(send(id, 5, 2, IPC_NOWAIT), EAGAIN) && send(id, 5, 1, IPC_NOWAIT) == 0);
    pid_t other = after(0, act_send_long, id);
    child = soon(act_remove, id);
    says("msgsnd, EIDRM if the queue is removed during the wait",
        refused(send(id, 5, TEXT, 0), EIDRM));
    says("msgsnd, in each process that waits", status_of(other) == EIDRM);
    status_of(child);
}

/* A queue whose bytes are msg_qbytes, which is lower than at first. */
static void raised_sentences(int id)
{
    set_qbytes(id, 100);
    send(id, 1, 100, 0);
    if (geteuid() == 0) {
        pid_t child = soon(act_raise_soon, id);
        says("msgsnd, waits until msg_qbytes is raised",
            send(id, 1, 10, 0) == 0 && stat_of(id).msg_qnum == 2);
        status_of(child);
    }
    says("msgctl, IPC_SET, a msg_qbytes below the bytes on the queue removes nothing",
        set_qbytes(id, 10) == 0 && stat_of(id).msg_qnum > 0
            && refused(send(id, 1, 1, IPC_NOWAIT), EAGAIN));
}

/* Four queues that are full take the whole pool of a server with 1,024 blocks. */
static void shared_room(int id)
{
    int full[4];
    for (int i = 0; i < 4; i++) {
        full[i] = new_queue(0600);
        send(full[i], 1, TEXT, IPC_NOWAIT);
        send(full[i], 1, TEXT, IPC_NOWAIT);
    }
    bool is_sent = send(id, 1, 1, IPC_NOWAIT) == 0;
    changed("msgsnd, a message fits if its own queue has room", is_sent,
        "and the pool of all queues has blocks for it", !is_sent && errno == EAGAIN);
    for (int i = 0; i < 4; i++)
        remove_queue(full[i]);
}

static void many_messages(int id)
{
    int count = 0;
    while (count < 300 && send(id, 1, 1, IPC_NOWAIT) == 0)
        count++;
    changed("msgsnd, messages of one byte fit up to msg_qbytes", count == 300,
        "256 messages wait at most", count == 256 && errno == EAGAIN);
}

static void receive_sentences(int id)
{
    time_t before = time(NULL);
    memcpy(out.text, "abcdef", 6);
    send(id, 5, 6, 0);
    send(id, 3, 5, 0);
    send(id, 9, 4, 0);
    send(id, 3, 3, 0);
    says("msgrcv, ENOMSG with IPC_NOWAIT if no message has the type",
        refused(receive(id, TEXT, 4, IPC_NOWAIT), ENOMSG)
            && refused(receive(id, TEXT, -2, IPC_NOWAIT), ENOMSG));
    says("msgrcv, a positive type takes the first of that type",
        receive(id, TEXT, 3, 0) == 5 && in.type == 3);
    says("msgrcv, E2BIG if the text is longer than the size",
        refused(receive(id, 3, 0, 0), E2BIG) && refused(receive(id, 2, 3, IPC_NOWAIT), E2BIG));
    struct msqid_ds told = stat_of(id);
    says("msgrcv, and then the message stays",
        told.msg_qnum == 3 && told.msg_cbytes == 13 && told.msg_lrpid == getpid());
    says("msgrcv, type 0 takes the first message", receive(id, TEXT, 0, 0) == 6 && in.type == 5);
    says("msgrcv, returns the number of bytes of the text", memcmp(in.text, "abcdef", 7) == 0);
    told = stat_of(id);
    says("msgrcv, msg_qnum falls by 1, and msg_lrpid is the calling process",
        told.msg_qnum == 2 && told.msg_lrpid == getpid());
    is_timed("msgrcv, msg_rtime is now", told.msg_rtime, before);
    says("msgrcv, a negative type takes the first of the lowest type up to its absolute value",
        receive(id, TEXT, -9, 0) == 3 && in.type == 3);
    in.text[2] = 'x';
    says("msgrcv, with MSG_NOERROR a longer text is cut",
        receive(id, 2, -9, MSG_NOERROR) == 2 && in.type == 9 && memcmp(in.text, "ab", 3) == 0);
    told = stat_of(id);
    says("msgrcv, and the rest is lost", told.msg_qnum == 0 && told.msg_cbytes == 0);
    says("msgrcv, EINVAL if the identifier is of no queue",
        refused(receive(-1, 4, 0, 0), EINVAL) && refused(receive(INT_MAX, 4, 0, 0), EINVAL));
    says("msgrcv, EINVAL if the size is below 0",
        refused(receive(id, (size_t)-1, 0, IPC_NOWAIT), EINVAL));
}

static void lowest_sentences(int id)
{
    send(id, 4, 1, 0);
    send(id, 2, 2, 0);
    send(id, 3, 3, 0);
    send(id, 2, 4, 0);
    says("msgrcv, a negative type takes its own absolute value, and no higher type",
        receive(id, TEXT, -2, IPC_NOWAIT) == 2 && receive(id, TEXT, -2, IPC_NOWAIT) == 4
            && refused(receive(id, TEXT, -2, IPC_NOWAIT), ENOMSG)
            && refused(receive(id, TEXT, -1, IPC_NOWAIT), ENOMSG));
    says("msgrcv, E2BIG by the message that the type takes, and size 0 with MSG_NOERROR takes it",
        refused(receive(id, 2, -4, IPC_NOWAIT), E2BIG)
            && receive(id, 0, -4, IPC_NOWAIT | MSG_NOERROR) == 0 && in.type == 3
            && receive(id, 1, -4, IPC_NOWAIT) == 1 && in.type == 4);
    in_child(act_send, id);
    pid_t self = getpid();
    struct msqid_ds told = stat_of(id);
    in_child(act_receive, id);
    says("msgrcv, msg_lrpid is the process that received last, and msg_lspid stays",
        told.msg_lrpid == self && stat_of(id).msg_lrpid != self
            && stat_of(id).msg_lspid == told.msg_lspid);
}

static void linux_receives(int id)
{
    send(id, 1, 4, 0);
    changed("msgrcv, Linux's MSG_COPY copies a message",
        refused(receive(id, TEXT, 0, MSG_COPY), EINVAL), "EINVAL, with IPC_NOWAIT too",
        refused(receive(id, TEXT, 0, MSG_COPY | IPC_NOWAIT), EINVAL));
    says("msgrcv, the least type takes any message", receive(id, TEXT, LONG_MIN, IPC_NOWAIT) == 4);
}

/* Linux's MSG_EXCEPT is the server's too. */
static void except_sentences(int id)
{
    send(id, 5, 1, 0);
    send(id, 2, 2, 0);
    send(id, 5, 3, 0);
    says("msgrcv, Linux's MSG_EXCEPT takes the first message of any other type",
        receive(id, TEXT, 5, MSG_EXCEPT | IPC_NOWAIT) == 2 && in.type == 2);
    says("msgrcv, and ENOMSG if there is none",
        refused(receive(id, TEXT, 5, MSG_EXCEPT | IPC_NOWAIT), ENOMSG));
    says("msgrcv, and E2BIG if it is longer than the size",
        refused(receive(id, 0, 6, MSG_EXCEPT | IPC_NOWAIT), E2BIG));
    says("msgrcv, with type 0 it has no effect",
        receive(id, TEXT, 0, MSG_EXCEPT | IPC_NOWAIT) == 1 && in.type == 5);
    says("msgrcv, nor with a negative type",
        refused(receive(id, TEXT, -4, MSG_EXCEPT | IPC_NOWAIT), ENOMSG)
            && receive(id, TEXT, -5, MSG_EXCEPT | IPC_NOWAIT) == 3 && in.type == 5);
    pid_t child = soon(act_send, id);
    says("msgrcv, and it waits until another type is sent",
        receive(id, TEXT, 5, MSG_EXCEPT) == 4 && in.type == 3);
    status_of(child);
}

static void wait_sentences(int id)
{
    pid_t child = soon(act_send_two, id);
    says("msgrcv, waits until a message of the type is sent, and not for another",
        receive(id, TEXT, 3, 0) == 4 && in.type == 3 && stat_of(id).msg_qnum == 1);
    status_of(child);
    pid_t other = after(0, act_wait, id);
    child = soon(act_remove, id);
    says("msgrcv, EIDRM if the queue is removed during the wait",
        refused(receive(id, TEXT, 3, 0), EIDRM));
    says("msgrcv, in each process that waits", status_of(other) == EIDRM);
    status_of(child);
}

static volatile sig_atomic_t caught;

static void catch (int number) { caught = number; }

/* A handled signal during a wait. */
static void signal_sentence(const char *sentence, int id, int flags, int (*waits)(int))
{
    struct sigaction action = {.sa_handler = catch, .sa_flags = flags};
    sigaction(SIGALRM, &action, NULL);
    caught = 0;
    pid_t child = soon(act_signal, id);
    says(sentence, refused(waits(id), EINTR) && caught);
    status_of(child);
}

static int wait_for_type(int id) { return (int)receive(id, TEXT, 3, 0); }

static void signal_sentences(int id)
{
    signal_sentence("msgrcv, EINTR if a signal is caught during the wait", id, 0, wait_for_type);
    signal_sentence("msgrcv, also with SA_RESTART", id, SA_RESTART, wait_for_type);
    says("msgrcv, and no message is taken later",
        send(id, 3, 4, 0) == 0 && receive(id, TEXT, 3, IPC_NOWAIT) == 4);
    send(id, 5, TEXT, 0);
    send(id, 5, TEXT, 0);
    signal_sentence("msgsnd, EINTR if a signal is caught during the wait", id, 0, act_send_long);
    signal_sentence("msgsnd, also with SA_RESTART", id, SA_RESTART, act_send_long);
    says("msgsnd, and then the message is not sent",
        stat_of(id).msg_qnum == 2 && receive(id, TEXT, 5, IPC_NOWAIT) == TEXT
            && refused(receive(id, TEXT, 3, IPC_NOWAIT), ENOMSG));
}

static void control_sentences(int id)
{
    time_t before = time(NULL);
    struct msqid_ds told;
    send(id, 1, 4, 0);
    says("msgctl, IPC_STAT returns 0", msgctl(id, IPC_STAT, &told) == 0);
    if (geteuid() == 0) {
        struct msqid_ds was = told;
        says("msgctl, IPC_SET returns 0", set_to(id, 1234, 1235, 0426 | 01000, 1000) == 0);
        told = stat_of(id);
        says("msgctl, and sets user, group, the low nine bits of the mode, and msg_qbytes",
            told.msg_perm.uid == 1234 && told.msg_perm.gid == 1235
                && (told.msg_perm.mode & 01777) == 0426 && told.msg_qbytes == 1000);
        is_timed("msgctl, and msg_ctime to now", told.msg_ctime, before);
        says("msgctl, and not the creator", told.msg_perm.cuid == 0 && told.msg_perm.cgid == 0);
        says("msgctl, and nothing else",
            told.msg_qnum == 1 && told.msg_cbytes == 4 && told.msg_lspid == was.msg_lspid
                && told.msg_lrpid == 0 && told.msg_stime == was.msg_stime && told.msg_rtime == 0
                && told.msg_perm.__key == was.msg_perm.__key);
        bool is_refused = refused(set_to(id, (uid_t)-1, 0, 0600, 1000), EINVAL);
        changed("msgctl, IPC_SET, EINVAL for user -1 on Linux", is_refused, "it is set",
            !is_refused && stat_of(id).msg_perm.uid == (uid_t)-1);
    }
    if (has_privilege(CAP_SYS_RESOURCE)) {
        says("msgctl, a user with the privilege may raise msg_qbytes", set_qbytes(id, 65536) == 0);
        int result = set_qbytes(id, 65537);
        changed(
            "msgctl, to any value", result == 0, "EINVAL above 65,536", refused(result, EINVAL));
    } else {
        skip("msgctl, a raise of msg_qbytes", "it needs root, and CAP_SYS_RESOURCE on the kernel");
    }
    says("msgctl, EINVAL if the command is unknown", refused(msgctl(id, 12345, &told), EINVAL));
    says("msgctl, IPC_RMID returns 0, also without a structure", msgctl(id, IPC_RMID, NULL) == 0);
    says("msgctl, and removes the identifier: EINVAL",
        refused(msgctl(id, IPC_STAT, &told), EINVAL) && refused(msgctl(id, IPC_RMID, NULL), EINVAL)
            && refused(msgctl(id, IPC_SET, &told), EINVAL) && refused(send(id, 1, 1, 0), EINVAL)
            && refused(receive(id, 1, 0, IPC_NOWAIT), EINVAL));
    says("msgctl, EINVAL if the identifier is of no queue",
        refused(msgctl(-1, IPC_STAT, &told), EINVAL) && refused(msgctl(-1, IPC_RMID, NULL), EINVAL)
            && refused(msgctl(INT_MAX, IPC_STAT, &told), EINVAL));
}

/* Puts a message on a queue of the caller's, and gives it to a user with this mode. */
static bool hold(int id, int mode)
{
    return set_to(id, geteuid(), getegid(), 0600, LIMIT) == 0 && send(id, 3, 0, IPC_NOWAIT) == 0
           && set_to(id, USER, USER + 1, mode, LIMIT) == 0;
}

/* Each class of callers, with a queue whose mode grants it one permission. */
static bool grants(int id, int bit, uid_t user, gid_t group)
{
    bool reads = (bit & 0444) != 0;
    bool is_set = hold(id, bit);
    return is_set && as(user, group, 0, act_receive, id) == (reads ? 0 : EACCES)
           && as(user, group, 0, act_stat, id) == (reads ? 0 : EACCES)
           && as(user, group, 0, act_send, id) == (reads ? EACCES : 0);
}

static bool denies(int id, int bits, uid_t user, gid_t group)
{
    return hold(id, bits) && as(user, group, 0, act_receive, id) == EACCES
           && as(user, group, 0, act_stat, id) == EACCES
           && as(user, group, 0, act_send, id) == EACCES;
}

static void class_sentences(int id)
{
    says("permission, of the owner: 0400 to receive and to stat, 0200 to send",
        grants(id, 0400, USER, OTHER) && grants(id, 0200, USER, OTHER));
    says("permission, of the owner: no other bit grants it", denies(id, 0177, USER, USER + 1));
    says("permission, of the owner's group: 0040 and 0020",
        grants(id, 0040, OTHER, USER + 1) && grants(id, 0020, OTHER, USER + 1));
    says("permission, of the creator's group too",
        grants(id, 0040, OTHER, getegid()) && grants(id, 0020, OTHER, getegid()));
    says("permission, of the group: no other bit grants it",
        denies(id, 0717, OTHER, USER + 1) && denies(id, 0717, OTHER, getegid()));
    says("permission, of others: 0004 and 0002",
        grants(id, 0004, OTHER, OTHER) && grants(id, 0002, OTHER, OTHER));
    says("permission, of others: no other bit grants it", denies(id, 0771, OTHER, OTHER));
    hold(id, 0040);
    int status = as(OTHER, OTHER, USER + 1, act_receive, id);
    changed("permission, a supplementary group is a group on Linux", status == 0,
        "the effective group alone, as in POSIX", status == EACCES);
    if (has_privilege(CAP_IPC_OWNER))
        says("permission, a user with the privilege needs none",
            hold(id, 0) && send(id, 1, 0, IPC_NOWAIT) == 0 && receive(id, TEXT, 0, IPC_NOWAIT) >= 0
                && act_stat(id) == 0);
    else
        skip("permission, of a user with the privilege",
            "it needs root, and CAP_IPC_OWNER on the kernel");
}

static void get_permission_sentences(key_t key)
{
    int id = msgget(key, IPC_CREAT | 0604);
    says("msgget, EACCES if the permission of the flags is not granted",
        get_as(USER, key, 0600) == EACCES && get_as(USER, key, 0200) == EACCES
            && get_as(USER, key, 0002) == EACCES && get_as(USER, key, 0020) == EACCES);
    says("msgget, with IPC_CREAT too", get_as(USER, key, IPC_CREAT | 0600) == EACCES);
    says("msgget, and not if it is granted, or none is asked for",
        get_as(USER, key, 0400) == 0 && get_as(USER, key, 0004) == 0 && get_as(USER, key, 0) == 0
            && get_as(USER, key, IPC_CREAT | 0400) == 0 && get_as(USER, key, IPC_EXCL) == 0);
    says("msgget, EEXIST comes before EACCES",
        get_as(USER, key, IPC_CREAT | IPC_EXCL | 0600) == EEXIST);
    int status = get_as(USER, key, 0100);
    changed("msgget, an execute bit of the flags is asked for on Linux", status == EACCES,
        "it is ignored", status == 0);
    remove_queue(id);
}

/* A queue that another user made. */
static void creator_sentences(key_t key)
{
    says("msgget, the owner and creator of another user's queue are that user and group",
        as_user(USER, act_make, key) == 0);
    int id = msgget(key, 0);
    bool given = give(USER, id, OTHER, 0);
    says("msgctl, IPC_SET, the owner may give it away",
        given && as_user(OTHER, act_stat, id) == EACCES);
    says("msgctl, IPC_SET, the creator may still, and so may the new owner",
        give(USER, id, OTHER, 0400) && give(OTHER, id, OTHER, 0600)
            && as_user(OTHER, act_stat, id) == 0);
    says("permission, the creator's is that of the owner", as_user(USER, act_stat, id) == 0);
    if (has_privilege(CAP_SYS_ADMIN)) {
        says("msgctl, IPC_SET, a user with the privilege may",
            set_to(id, OTHER + 1, OTHER, 0, LIMIT) == 0);
        says("msgctl, EPERM for a user who owned it before",
            !give(OTHER, id, OTHER, 0) && as_user(OTHER, act_remove, id) == EPERM);
        says("msgctl, IPC_RMID, a user with the privilege may", msgctl(id, IPC_RMID, NULL) == 0);
        as_user(USER, act_make, key);
        id = msgget(key, 0);
    } else {
        skip("msgctl, IPC_SET and IPC_RMID with the privilege",
            "they need root, and CAP_SYS_ADMIN on the kernel");
    }
    says("msgctl, IPC_RMID, the creator may",
        give(USER, id, OTHER, 0) && as_user(USER, act_remove, id) == 0);
}

static void permission_sentences(key_t key)
{
    int id = msgget(key, IPC_CREAT | 0600);
    says("msgsnd, EACCES without write permission", as_user(USER, act_send, id) == EACCES);
    says("msgsnd, EINVAL for the type and the size comes before it",
        as_user(USER, act_send_no_type, id) == EINVAL
            && as_user(USER, act_send_too_long, id) == EINVAL);
    says("msgrcv, EACCES without read permission", as_user(USER, act_receive, id) == EACCES);
    says("msgctl, IPC_STAT, EACCES without read permission", as_user(USER, act_stat, id) == EACCES);
    asked_command = 12345;
    says(
        "msgctl, EINVAL for the command comes before it", as_user(USER, act_command, id) == EINVAL);
    says("msgctl, EINVAL for the identifier, whoever calls",
        as_user(USER, act_stat, INT_MAX) == EINVAL && as_user(USER, act_remove, INT_MAX) == EINVAL
            && set_as(USER, INT_MAX, 100) == EINVAL);
    set_to(id, 0, 0, 0666, LIMIT);
    says("msgctl, IPC_RMID, EPERM for a user who is neither owner nor creator, whatever the mode",
        as_user(USER, act_remove, id) == EPERM);
    says("msgctl, IPC_SET, EPERM for that user, whatever is set",
        set_as(USER, id, LIMIT) == EPERM && set_as(USER, id, 100) == EPERM
            && set_as(USER, id, 70000) == EPERM);
    says("msgctl, and nothing changed",
        stat_of(id).msg_perm.uid == 0 && stat_of(id).msg_qbytes == LIMIT);
    set_to(id, USER, USER, 0, LIMIT);
    says("msgctl, IPC_SET, the owner may, without a permission of the mode, and lower msg_qbytes",
        set_as(USER, id, 100) == 0 && stat_of(id).msg_qbytes == 100);
    /* Linux departs from the standard: an owner may raise it up to the system's limit. */
    says("msgctl, IPC_SET, EPERM for an owner who raises msg_qbytes (Linux: above the limit)",
        set_as(USER, id, 101) == (on_server ? EPERM : 0));
    says("msgctl, IPC_SET, EPERM for an owner who raises it above the system's limit",
        set_as(USER, id, LIMIT + 1) == EPERM);
    int status = set_as(USER, id, 65537);
    changed("msgctl, IPC_SET, and far above it", status == EPERM, "EINVAL above 65,536",
        status == EINVAL);
    says("msgctl, IPC_RMID, the owner may", as_user(USER, act_remove, id) == 0);
}

static void on_queue(void (*sentences)(int))
{
    int id = new_queue(0600);
    sentences(id);
    remove_queue(id);
}

int main(int count, char **words)
{
    key_t key = 0x5e57 + (getpid() << 16);
    if (count != 2)
        return 2;
    on_server = strcmp(words[1], "server") == 0;
    setvbuf(stdout, NULL, _IOLBF, 0);
    if (!on_server && refused(msgget(key, 0), ENOSYS)) {
        skip("all", "this kernel has no message queues");
        return 0;
    }
    get_sentences(key);
    private_sentences();
    get_limit();
    on_queue(send_sentences);
    on_queue(full_sentences);
    on_queue(raised_sentences);
    on_queue(shared_room);
    on_queue(many_messages);
    on_queue(receive_sentences);
    on_queue(lowest_sentences);
    on_queue(linux_receives);
    on_queue(except_sentences);
    on_queue(wait_sentences);
    on_queue(signal_sentences);
    on_queue(control_sentences);
    if (geteuid() == 0) {
        on_queue(class_sentences);
        get_permission_sentences(key);
        creator_sentences(key);
        permission_sentences(key);
    } else {
        skip("permissions", "they need root, to be two users");
    }
    return failed;
}
