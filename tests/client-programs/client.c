/* What tests/program/client-c tries of the library for clients in C: client PART PATH. It ends with
 * status 0 if all is right, and else says on which line it is not. */
#define _GNU_SOURCE
#include <errno.h>
#include <pthread.h>
#include <signal.h>
#include <stdatomic.h>
#include <stdbool.h>
#include <stdio.h>
#include <stdlib.h>
#include <string.h>
#include <sys/wait.h>
#include <time.h>
#include <unistd.h>

#include "sysvmsg.h"

enum { MESSAGES = 120, THREADS = 8, ROUNDS = 100, KEY = 7 };

/* assert, also in a build without it, and in a child too. */
#define CHECK(condition)                                                                           \
    do {                                                                                           \
        if (!(condition)) {                                                                        \
            fprintf(stderr, "line %d: %s (errno %d)\n", __LINE__, #condition, errno);              \
            _exit(1);                                                                              \
        }                                                                                          \
    } while (0)

static const char *path;

static struct sysvmsg *open_server(void)
{
    struct sysvmsg *server = sysvmsg_open(path, 10000);
    CHECK(server);
    return server;
}

static int send_text(struct sysvmsg *server, int queue, int64_t type, const char *text, int limit)
{
    struct sysvmsg_message message = {.type = type};
    memcpy(message.body, text, strlen(text));
    return sysvmsg_snd(server, queue, &message, strlen(text), limit);
}

/* Receives a message that is to have this text. */
static bool receives(struct sysvmsg *server, int queue, int64_t type, const char *text)
{
    struct sysvmsg_message message;
    ssize_t size = sysvmsg_rcv(server, queue, &message, sizeof message.body, type, 0, 10000);
    return size == (ssize_t)strlen(text) && memcmp(message.body, text, (size_t)size) == 0;
}

static void sleep_micros(long micros)
{
    nanosleep(&(struct timespec){micros / 1000000, micros % 1000000 * 1000}, NULL);
}

/* Prints a result as tests/vectors has its fields. */
static void print_body(const struct sysvmsg_message *message, ssize_t size)
{
    printf("type=%lld body=", (long long)message->type);
    for (ssize_t i = 0; i < size; i++)
        printf("%02x", (unsigned char)message->body[i]);
    printf("\n");
}

static void print_stat(const struct sysvmsg_stat *s)
{
    printf("key=%d uid=%u gid=%u cuid=%u cgid=%u mode=%u cbytes=%u qnum=%u qbytes=%u lspid=%u "
           "lrpid=%u "
           "stime=%llu rtime=%llu ctime=%llu\n",
        s->key, s->uid, s->gid, s->cuid, s->cgid, s->mode, s->cbytes, s->qnum, s->qbytes, s->lspid,
        s->lrpid, (unsigned long long)s->stime, (unsigned long long)s->rtime,
        (unsigned long long)s->ctime);
}

static void print_row(int found, const struct sysvmsg_row *row)
{
    if (found)
        printf("id=%d key=%d uid=%u mode=%u cbytes=%u qnum=%u\n", row->id, row->key, row->uid,
            row->mode, row->cbytes, row->qnum);
    else
        printf("\n");
}

/* Reads a body in hexadecimal. */
static size_t read_body(char *body, const char *text)
{
    size_t size = strlen(text) / 2;
    for (size_t i = 0; i < size; i++)
        CHECK(sscanf(text + 2 * i, "%2hhx", (unsigned char *)body + i) == 1);
    return size;
}

/* Makes one call, whose words are those of a vector: the operation and the values of its fields. */
static int call(struct sysvmsg *server, char **w)
{
    struct sysvmsg_message message;
    struct sysvmsg_stat stat;
    struct sysvmsg_row row;
    const char *name = w[0];
    int number = w[1] ? atoi(w[1]) : 0, result;
    if (strcmp(name, "get") == 0) {
        result = sysvmsg_get(server, number, atoi(w[2]));
        if (result >= 0)
            printf("id=%d\n", result);
    } else if (strcmp(name, "snd") == 0) {
        message.type = strtoll(w[2], NULL, 10);
        size_t size = read_body(message.body, w[4] ? w[4] : "");
        result = sysvmsg_snd(
            server, number, &message, size, atoi(w[3]) & 2048 ? SYSVMSG_NOWAIT : SYSVMSG_NO_LIMIT);
    } else if (strcmp(name, "rcv") == 0) {
        int flags = atoi(w[4]);
        result = (int)sysvmsg_rcv(server, number, &message, (size_t)atoi(w[2]),
            strtoll(w[3], NULL, 10), flags, flags & 2048 ? SYSVMSG_NOWAIT : SYSVMSG_NO_LIMIT);
        if (result >= 0)
            print_body(&message, result);
    } else if (strcmp(name, "hold") == 0) {
        int flags = atoi(w[4]), limit = flags & 2048 ? SYSVMSG_NOWAIT : SYSVMSG_NO_LIMIT;
        uint32_t seconds = (uint32_t)strtoul(w[5], NULL, 10);
        size_t size = (size_t)atoi(w[2]);
        int64_t type = strtoll(w[3], NULL, 10);
        result =
            (int)(seconds == 0 ? sysvmsg_hold(server, number, &message, size, type, flags, limit)
                               : sysvmsg_hold_for(
                                   server, number, &message, size, type, flags, limit, seconds));
        if (result >= 0)
            print_body(&message, result);
    } else if (strcmp(name, "done") == 0 || strcmp(name, "back") == 0) {
        CHECK(sysvmsg_hold(server, 0, &message, 100, -5, 0, SYSVMSG_NOWAIT) >= 0);
        result = strcmp(name, "done") == 0 ? sysvmsg_done(server) : sysvmsg_back(server);
        if (result == 0)
            printf("\n");
    } else if (strcmp(name, "stat") == 0) {
        result = sysvmsg_stat(server, number, &stat);
        if (result == 0)
            print_stat(&stat);
    } else if (strcmp(name, "set") == 0) {
        struct sysvmsg_set set = {
            (uint32_t)atoi(w[2]), (uint32_t)atoi(w[3]), (uint32_t)atoi(w[4]), (uint32_t)atoi(w[5])};
        result = sysvmsg_set(server, number, &set);
    } else if (strcmp(name, "rm") == 0) {
        result = sysvmsg_rm(server, number);
    } else {
        result = sysvmsg_row(server, number, &row);
        if (result >= 0)
            print_row(result, &row);
    }
    if (result < 0)
        printf("error=%s\n", strerrorname_np(errno));
    else if (strcmp(name, "snd") == 0 || strcmp(name, "set") == 0 || strcmp(name, "rm") == 0)
        printf("\n");
    return result;
}

static void try_call(bool can_hold, char **words)
{
    struct sysvmsg *server = can_hold ? sysvmsg_open_holding(path, SYSVMSG_NO_LIMIT)
                                      : sysvmsg_open_as(path, 1000, 1000, SYSVMSG_NO_LIMIT);
    CHECK(server);
    CHECK(sysvmsg_slots(server) == 256);
    errno = 0;
    if (call(server, words) < 0 && errno == EIO)
        fprintf(stderr, "%s\n", sysvmsg_reason(server));
    sysvmsg_close(server);
}

static void try_limits(void)
{
    struct sysvmsg *server = open_server(), *other = open_server();
    int queue = sysvmsg_get(server, KEY, SYSVMSG_CREAT | 0600);
    struct sysvmsg_message message;
    CHECK(queue >= 0);
    CHECK(sysvmsg_rcv(server, queue, &message, sizeof message.body, 0, 0, SYSVMSG_NOWAIT) == -1
          && errno == ENOMSG);
    CHECK(sysvmsg_rcv(server, queue, &message, sizeof message.body, 0, 0, 200) == -1
          && errno == ETIMEDOUT);
    CHECK(send_text(other, queue, 1, "later", 10000) == 0);
    CHECK(receives(server, queue, 0, "later"));
    struct sysvmsg_set set = {geteuid(), getegid(), 0600, 3};
    CHECK(sysvmsg_set(server, queue, &set) == 0);
    CHECK(send_text(server, queue, 1, "abc", 10000) == 0);
    CHECK(send_text(server, queue, 1, "d", SYSVMSG_NOWAIT) == -1 && errno == EAGAIN);
    CHECK(send_text(server, queue, 1, "d", 200) == -1 && errno == ETIMEDOUT);
    CHECK(receives(other, queue, 0, "abc"));
    struct sysvmsg_stat stat;
    CHECK(sysvmsg_stat(other, queue, &stat) == 0 && stat.qnum == 0);
    CHECK(sysvmsg_rm(other, queue) == 0);
    CHECK(sysvmsg_rcv(server, queue, &message, sizeof message.body, 0, 0, 200) == -1
          && errno == EINVAL);
    sysvmsg_close(server);
    sysvmsg_close(other);
}

static void *send_all(void *arg)
{
    struct sysvmsg *server = open_server();
    unsigned seed = 1;
    char text[16];
    for (int i = 0; i < MESSAGES; i++) {
        sleep_micros(rand_r(&seed) % 20000);
        snprintf(text, sizeof text, "%d", i);
        CHECK(send_text(server, *(int *)arg, 1, text, SYSVMSG_NO_LIMIT) == 0);
    }
    sysvmsg_close(server);
    return NULL;
}

/* Receives that give up at any time lose and double nothing. */
static void try_races(void)
{
    struct sysvmsg *server = open_server();
    int queue = sysvmsg_get(server, KEY, SYSVMSG_CREAT | 0600), taken = 0, given_up = 0;
    pthread_t sender;
    unsigned seed = 2;
    CHECK(pthread_create(&sender, NULL, send_all, &queue) == 0);
    while (taken < MESSAGES) {
        struct sysvmsg_message message;
        ssize_t size = sysvmsg_rcv(
            server, queue, &message, sizeof message.body - 1, 0, 0, 1 + rand_r(&seed) % 20);
        CHECK(size >= 0 || errno == ETIMEDOUT);
        if (size < 0) {
            given_up++;
            continue;
        }
        message.body[size] = 0;
        CHECK(atoi(message.body) == taken);
        taken++;
    }
    pthread_join(sender, NULL);
    struct sysvmsg_stat stat;
    CHECK(sysvmsg_stat(server, queue, &stat) == 0 && stat.qnum == 0 && given_up > 0);
    sysvmsg_close(server);
}

struct worker {
    struct sysvmsg *server;
    int queue;
    int64_t type;
};

static void *work(void *arg)
{
    const struct worker *worker = arg;
    char text[16];
    for (int i = 0; i < ROUNDS; i++) {
        snprintf(text, sizeof text, "%d.%d", (int)worker->type, i);
        CHECK(send_text(worker->server, worker->queue, worker->type, text, SYSVMSG_NO_LIMIT) == 0);
        CHECK(receives(worker->server, worker->queue, worker->type, text));
    }
    return NULL;
}

/* Threads use one connection at once, while another one waits in it. */
static void try_threads(void)
{
    struct sysvmsg *server = open_server();
    int queue = sysvmsg_get(server, KEY, SYSVMSG_CREAT | 0600);
    pthread_t threads[THREADS];
    struct worker workers[THREADS];
    for (int i = 0; i < THREADS; i++) {
        workers[i] = (struct worker){server, queue, i + 1};
        CHECK(pthread_create(&threads[i], NULL, work, &workers[i]) == 0);
    }
    for (int i = 0; i < THREADS; i++)
        pthread_join(threads[i], NULL);
    sysvmsg_close(server);
}

/* A child of fork has a session of its own, and its parent's goes on. */
static void try_fork(void)
{
    struct sysvmsg *server = open_server();
    int queue = sysvmsg_get(server, KEY, SYSVMSG_CREAT | 0600), status;
    pid_t child = fork();
    if (child == 0) {
        CHECK(send_text(server, queue, 1, "from the child", 10000) == 0);
        sysvmsg_close(server);
        _exit(0);
    }
    CHECK(waitpid(child, &status, 0) == child && status == 0);
    struct sysvmsg_stat stat;
    CHECK(sysvmsg_stat(server, queue, &stat) == 0 && stat.lspid == (uint32_t)child);
    CHECK(receives(server, queue, 0, "from the child"));
    sysvmsg_close(server);
}

static void note(int number) { (void)number; }

/* A signal handler ends a call that waits, which then took nothing. */
static void try_signal(void)
{
    struct sysvmsg *server = open_server();
    int queue = sysvmsg_get(server, KEY, SYSVMSG_CREAT | 0600);
    struct sigaction action = {.sa_handler = note, .sa_flags = SA_RESTART};
    struct sysvmsg_message message;
    CHECK(sigaction(SIGALRM, &action, NULL) == 0);
    alarm(1);
    CHECK(sysvmsg_rcv(server, queue, &message, sizeof message.body, 0, 0, SYSVMSG_NO_LIMIT) == -1
          && errno == EINTR);
    CHECK(send_text(server, queue, 1, "kept", 10000) == 0);
    CHECK(receives(server, queue, 0, "kept"));
    sysvmsg_close(server);
}

static void *wait_for_message(void *arg)
{
    const struct worker *worker = arg;
    struct sysvmsg_message message;
    sysvmsg_rcv(
        worker->server, worker->queue, &message, sizeof message.body, 0, 0, SYSVMSG_NO_LIMIT);
    return NULL;
}

/* A thread that is cancelled while its call waits takes nothing, and the connection can be used on.
 */
static void try_cancel(void)
{
    struct sysvmsg *server = open_server();
    struct worker worker = {server, sysvmsg_get(server, KEY, SYSVMSG_CREAT | 0600), 0};
    pthread_t thread;
    void *result;
    CHECK(pthread_create(&thread, NULL, wait_for_message, &worker) == 0);
    sleep_micros(300000);
    CHECK(pthread_cancel(thread) == 0 && pthread_join(thread, &result) == 0
          && result == PTHREAD_CANCELED);
    CHECK(send_text(server, worker.queue, 1, "kept", 10000) == 0);
    CHECK(receives(server, worker.queue, 0, "kept"));
    sysvmsg_close(server);
}

/* Asks the script for something. */
static void ask_script(const char *what)
{
    puts(what);
    fflush(stdout);
}

/* The server is killed while a call waits, and another one starts. */
static void try_restart(void)
{
    struct sysvmsg *server = open_server();
    struct worker worker = {server, sysvmsg_get(server, KEY, SYSVMSG_CREAT | 0600), 0};
    struct sigaction action = {.sa_handler = note};
    pthread_t thread;
    CHECK(worker.queue == 0 && sysvmsg_unknown(server) == 0);
    CHECK(pthread_create(&thread, NULL, wait_for_message, &worker) == 0);
    sleep_micros(300000);
    CHECK(sysvmsg_retry(server, 1000) == -1 && errno == EBUSY);
    ask_script("kill");
    CHECK(pthread_join(thread, NULL) == 0 && sysvmsg_unknown(server) == 1);
    CHECK(sysvmsg_retry(server, 300) == -1 && (errno == ENOENT || errno == ECONNREFUSED));
    CHECK(send_text(server, worker.queue, 1, "x", 10000) == -1 && errno == EIO);
    CHECK(sysvmsg_unknown(server) == 0);
    CHECK(sigaction(SIGALRM, &action, NULL) == 0);
    alarm(1);
    CHECK(sysvmsg_retry(server, SYSVMSG_NO_LIMIT) == -1 && errno == EINTR);
    ask_script("start");
    CHECK(sysvmsg_retry(server, 20000) == 0);
    CHECK(sysvmsg_get(server, KEY, 0) == -1 && errno == ENOENT);
    CHECK(sysvmsg_get(server, KEY + 1, SYSVMSG_CREAT | 0600) == worker.queue);
    CHECK(send_text(server, worker.queue, 1, "kept", 10000) == 0);
    CHECK(sysvmsg_retry(server, 1000) == 0);
    CHECK(sysvmsg_reason(server)[0] != 0);
    sysvmsg_close(server);
    server = open_server();
    CHECK(sysvmsg_reason(server)[0] == 0 && sysvmsg_unknown(server) == 0);
    CHECK(receives(server, worker.queue, 0, "kept"));
    sysvmsg_close(server);
}

/* Has the script do something to the server, and waits until that is done. */
static void script_does(const char *what)
{
    ask_script(what);
    CHECK(getchar() == '\n');
}

/* Whether a call failed because its session ended, with this outcome. */
static bool is_lost(ssize_t result, int outcome)
{
    return result == -1 && errno == EIO && sysvmsg_outcome() == outcome;
}

/* Finds the queue at the next server, where another one has the identifier that it had. */
static int find_again(struct sysvmsg *server, int before)
{
    struct sysvmsg *other = open_server();
    struct sysvmsg_stat stat;
    CHECK(sysvmsg_get(other, KEY + 1, SYSVMSG_CREAT | 0600) == before);
    CHECK(sysvmsg_retry(server, 20000) == 0);
    /* (no message goes to that one) */
    for (int i = 0; i < 2; i++)
        CHECK(is_lost(send_text(server, before, 1, "x", 10000), SYSVMSG_NOT_MADE));
    CHECK(strstr(sysvmsg_reason(server), "another server") && sysvmsg_unknown(server) == 0);
    CHECK(sysvmsg_stat(other, before, &stat) == 0 && stat.qnum == 0);
    int queue = sysvmsg_get(server, KEY, SYSVMSG_CREAT | 0600);
    CHECK(queue != before && sysvmsg_outcome() == SYSVMSG_ANSWERED);
    CHECK(sysvmsg_stat(server, queue, &stat) == 0 && stat.qnum == 0);
    CHECK(send_text(server, queue, 1, "kept", 10000) == 0 && receives(other, queue, 0, "kept"));
    CHECK(is_lost(sysvmsg_rm(server, before), SYSVMSG_NOT_MADE));
    /* (a row finds a queue too) */
    struct sysvmsg_row row;
    CHECK(sysvmsg_row(server, before, &row) == 1 && row.id == before);
    CHECK(sysvmsg_rm(server, before) == 0);
    sysvmsg_close(other);
    return queue;
}

/* What became of calls whose server is killed, and another one started: before the request, with a
 * request that it has not read, and with one that it has. */
static void try_outcomes(void)
{
    struct sysvmsg *server = open_server();
    struct sysvmsg_message message = {.type = 1};
    int queue = sysvmsg_get(server, KEY, SYSVMSG_CREAT | 0600);
    CHECK(queue >= 0 && sysvmsg_outcome() == SYSVMSG_ANSWERED);
    CHECK(sysvmsg_get(server, KEY, SYSVMSG_CREAT | SYSVMSG_EXCL) == -1 && errno == EEXIST);
    CHECK(sysvmsg_outcome() == SYSVMSG_ANSWERED);
    CHECK(sysvmsg_rcv(server, queue, &message, 9, 0, 0, 50) == -1 && errno == ETIMEDOUT);
    CHECK(sysvmsg_outcome() == SYSVMSG_NOT_MADE);
    CHECK(send_text(server, queue, 1, "kept", 10000) == 0 && receives(server, queue, 0, "kept"));
    CHECK(sysvmsg_snd(server, queue, &message, 9999, 0) == -1 && errno == EINVAL);
    CHECK(sysvmsg_outcome() == SYSVMSG_NOT_MADE);
    script_does("restart");
    CHECK(is_lost(send_text(server, queue, 1, "x", 10000), SYSVMSG_NOT_MADE));
    CHECK(sysvmsg_unknown(server) == 0);
    queue = find_again(server, queue);
    script_does("suspend");
    ask_script("restart soon");
    CHECK(is_lost(send_text(server, queue, 1, "x", 10000), SYSVMSG_NOT_MADE));
    CHECK(sysvmsg_unknown(server) == 0);
    script_does("go on");
    queue = sysvmsg_get(server, KEY, SYSVMSG_CREAT | 0600);
    CHECK(sysvmsg_rcv(server, queue, &message, 9, 0, 0, 0) == -1 && errno == ENOMSG);
    script_does("suspend");
    ask_script("restart soon");
    CHECK(sysvmsg_rcv(server, queue, &message, 9, 0, 0, 100) == -1 && errno == ETIMEDOUT);
    CHECK(sysvmsg_outcome() == SYSVMSG_NOT_MADE);
    script_does("go on");
    CHECK(is_lost(sysvmsg_rm(server, queue), SYSVMSG_NOT_MADE));
    queue = sysvmsg_get(server, KEY, SYSVMSG_CREAT | 0600);
    ask_script("restart soon");
    CHECK(is_lost(sysvmsg_rcv(server, queue, &message, 9, 0, 0, 10000), SYSVMSG_UNKNOWN));
    CHECK(sysvmsg_unknown(server) == 1);
    script_does("kill");
    CHECK(sysvmsg_retry(server, 200) == -1 && errno == ENOENT);
    CHECK(sysvmsg_unknown(server) == 1 && sysvmsg_outcome() == SYSVMSG_UNKNOWN);
    script_does("start");
    CHECK(sysvmsg_retry(server, 20000) == 0);
    CHECK(sysvmsg_unknown(server) == 1 && sysvmsg_outcome() == SYSVMSG_UNKNOWN);
    sysvmsg_close(server);
}

static atomic_int steps; /* that a thread or its parent has made */

static void await_step(int number)
{
    while (atomic_load(&steps) < number)
        sleep_micros(1000);
}

static void *lose_call(void *given)
{
    struct worker *worker = given;
    struct sysvmsg_message message;
    ssize_t size = sysvmsg_rcv(
        worker->server, worker->queue, &message, sizeof message.body, 0, 0, SYSVMSG_NO_LIMIT);
    CHECK(is_lost(size, SYSVMSG_UNKNOWN));
    atomic_store(&steps, 1);
    await_step(2);
    CHECK(sysvmsg_outcome() == SYSVMSG_UNKNOWN && sysvmsg_unknown(worker->server) == 1);
    return NULL;
}

/* A thread learns what became of its own call, and not of that of another thread. No thread uses a
 * queue of the next server that another thread has found by chance. */
static void try_outcome_of_thread(void)
{
    struct sysvmsg *server = open_server();
    struct worker worker = {server, sysvmsg_get(server, KEY, SYSVMSG_CREAT | 0600), 0};
    pthread_t thread;
    CHECK(pthread_create(&thread, NULL, lose_call, &worker) == 0);
    sleep_micros(300000);
    script_does("restart");
    await_step(1);
    CHECK(sysvmsg_get(server, KEY + 1, SYSVMSG_CREAT | 0600) == worker.queue);
    CHECK(sysvmsg_get(server, KEY, SYSVMSG_CREAT | 0600) == worker.queue + 1);
    CHECK(send_text(server, worker.queue + 1, 1, "kept", 10000) == 0);
    script_does("restart");
    CHECK(is_lost(send_text(server, worker.queue, 1, "x", 10000), SYSVMSG_NOT_MADE));
    CHECK(sysvmsg_unknown(server) == 0);
    atomic_store(&steps, 2);
    CHECK(pthread_join(thread, NULL) == 0);
    CHECK(sysvmsg_outcome() == SYSVMSG_NOT_MADE && sysvmsg_unknown(server) == 0);
    sysvmsg_close(server);
}

/* A thread waits at one server; the other threads do not send to the queues of the next one. */
static void try_restart_apart(void)
{
    struct sysvmsg *server = open_server(), *holder = sysvmsg_open_holding(path, 10000);
    struct sysvmsg_stat stat;
    int queue = sysvmsg_get(holder, KEY, SYSVMSG_CREAT | 0600);
    CHECK(send_text(server, queue, 5, "held", 10000) == 0);
    struct sysvmsg_message message;
    CHECK(sysvmsg_hold(holder, queue, &message, 9, 0, 0, 10000) == 4);
    script_does("restart");
    sysvmsg_close(server);
    server = open_server();
    CHECK(sysvmsg_get(server, KEY + 1, SYSVMSG_CREAT | 0600) == queue);
    CHECK(is_lost(send_text(holder, queue, 1, "x", 10000), SYSVMSG_NOT_MADE));
    CHECK(sysvmsg_stat(server, queue, &stat) == 0 && stat.qnum == 0);
    CHECK(is_lost(sysvmsg_done(holder), SYSVMSG_NOT_MADE));
    CHECK(sysvmsg_done(holder) == -1 && errno == EINVAL);
    CHECK(sysvmsg_outcome() == SYSVMSG_NOT_MADE);
    int found = sysvmsg_get(holder, KEY, SYSVMSG_CREAT | 0600);
    CHECK(found == queue + 1 && send_text(holder, found, 5, "next", 10000) == 0);
    CHECK(sysvmsg_hold(holder, found, &message, 9, 0, 0, 10000) == 4);
    CHECK(send_text(holder, found, 5, "apart", 10000) == 0 && sysvmsg_done(holder) == 0);
    CHECK(receives(server, found, 0, "apart"));
    sysvmsg_close(holder);
    sysvmsg_close(server);
}

/* An open waits for a server, within its time. */
static void try_open_retry(void)
{
    struct sigaction action = {.sa_handler = note};
    CHECK(!sysvmsg_open_retry(path, 200) && errno == ENOENT);
    CHECK(!sysvmsg_open_holding_retry(path, 0) && errno == ENOENT);
    CHECK(sigaction(SIGALRM, &action, NULL) == 0);
    ualarm(300000, 0);
    CHECK(!sysvmsg_open_retry(path, SYSVMSG_NO_LIMIT) && errno == EINTR);
    ask_script("start soon");
    struct sysvmsg *server = sysvmsg_open_retry(path, 20000);
    CHECK(server && sysvmsg_get(server, KEY, SYSVMSG_CREAT | 0600) == 0);
    script_does("go on");
    CHECK(!sysvmsg_open_holding_retry(path, 10000) && errno == EPROTONOSUPPORT);
    script_does("kill");
    ask_script("start soon holding");
    struct sysvmsg *holder = sysvmsg_open_holding_retry(path, 20000);
    CHECK(holder && sysvmsg_get(holder, KEY, SYSVMSG_CREAT | 0600) == 0);
    script_does("go on");
    sysvmsg_close(holder);
    sysvmsg_close(server);
}

/* A session that its server ends: the queues are those that were found before. */
static void try_same_server(void)
{
    struct sysvmsg *server = open_server();
    int queue = sysvmsg_get(server, KEY, SYSVMSG_CREAT | 0600);
    sleep_micros(2500000);
    CHECK(is_lost(send_text(server, queue, 1, "x", 10000), SYSVMSG_NOT_MADE));
    CHECK(send_text(server, queue, 1, "kept", 10000) == 0);
    CHECK(receives(server, queue, 0, "kept"));
    sysvmsg_close(server);
}

/* The only place of the server is taken. */
static void try_no_place(void)
{
    struct sysvmsg *server = open_server();
    CHECK(!sysvmsg_open(path, 300) && errno == ETIMEDOUT);
    sysvmsg_close(server);
}

static void try_no_server(void)
{
    char long_path[200];
    CHECK(!sysvmsg_open(path, 1000) && errno == ENOENT);
    memset(long_path, 'x', sizeof long_path - 1);
    long_path[sizeof long_path - 1] = 0;
    CHECK(!sysvmsg_open(long_path, 1000) && errno == ENAMETOOLONG);
}

/* Memory that is missing is reported, and no message is taken or sent for it. */
static void try_faults(void)
{
    struct sysvmsg *server = open_server();
    int queue = sysvmsg_get(server, KEY, SYSVMSG_CREAT | 0600);
    void *missing[] = {NULL, (void *)1};
    CHECK(!sysvmsg_open(NULL, 1000) && errno == EFAULT);
    CHECK(send_text(server, queue, 1, "kept", 10000) == 0);
    for (size_t i = 0; i < sizeof missing / sizeof *missing; i++) {
        CHECK(sysvmsg_snd(server, queue, missing[i], 5, 10000) == -1 && errno == EFAULT);
        CHECK(sysvmsg_rcv(server, queue, missing[i], 5, 0, 0, 10000) == -1 && errno == EFAULT);
        CHECK(sysvmsg_stat(server, queue, missing[i]) == -1 && errno == EFAULT);
        CHECK(sysvmsg_set(server, queue, missing[i]) == -1 && errno == EFAULT);
        CHECK(sysvmsg_row(server, 0, missing[i]) == -1 && errno == EFAULT);
    }
    CHECK(receives(server, queue, 0, "kept"));
    struct sysvmsg_stat stat;
    CHECK(sysvmsg_stat(server, queue, &stat) == 0 && stat.qnum == 0);
    sysvmsg_close(server);
}

/* So is a connection that is missing, as after an open that failed. */
static void try_no_connection(void)
{
    struct sysvmsg_message message = {.type = 1};
    struct sysvmsg_stat stat;
    struct sysvmsg_set set = {0};
    struct sysvmsg_row row;
    CHECK(sysvmsg_get(NULL, KEY, 0) == -1 && errno == EFAULT);
    CHECK(sysvmsg_snd(NULL, 0, &message, 0, 0) == -1 && errno == EFAULT);
    CHECK(sysvmsg_rcv(NULL, 0, &message, 1, 0, 0, 0) == -1 && errno == EFAULT);
    CHECK(sysvmsg_stat(NULL, 0, &stat) == -1 && errno == EFAULT);
    CHECK(sysvmsg_set(NULL, 0, &set) == -1 && errno == EFAULT);
    errno = 0;
    CHECK(sysvmsg_rm(NULL, 0) == -1 && errno == EFAULT);
    CHECK(sysvmsg_row(NULL, 0, &row) == -1 && errno == EFAULT);
    errno = 0;
    CHECK(sysvmsg_slots(NULL) == -1 && errno == EFAULT);
    CHECK(sysvmsg_reason(NULL)[0] == 0);
    errno = 0;
    CHECK(sysvmsg_unknown(NULL) == -1 && errno == EFAULT);
    errno = 0;
    CHECK(sysvmsg_retry(NULL, 0) == -1 && errno == EFAULT);
    errno = 0;
    CHECK(sysvmsg_hold(NULL, 0, &message, 1, 0, 0, 0) == -1 && errno == EFAULT);
    CHECK(sysvmsg_hold_for(NULL, 0, &message, 1, 0, 0, 0, 1) == -1 && errno == EFAULT);
    errno = 0;
    CHECK(sysvmsg_done(NULL) == -1 && errno == EFAULT);
    errno = 0;
    CHECK(sysvmsg_back(NULL) == -1 && errno == EFAULT);
    sysvmsg_close(NULL);
}

/* Holds a message that is to have this text and type. */
static bool holds(struct sysvmsg *server, int queue, int64_t type, const char *text)
{
    struct sysvmsg_message message;
    ssize_t size = sysvmsg_hold(server, queue, &message, sizeof message.body, 0, 0, 10000);
    return size == (ssize_t)strlen(text) && memcmp(message.body, text, (size_t)size) == 0
           && message.type == type;
}

/* A message that is done is gone, and another one comes back. */
static void try_hold(void)
{
    struct sysvmsg *server = open_server(), *holder = sysvmsg_open_holding(path, 10000);
    struct sysvmsg_message message;
    struct sysvmsg_stat stat;
    CHECK(holder && sysvmsg_slots(holder) == sysvmsg_slots(server));
    int queue = sysvmsg_get(holder, KEY, SYSVMSG_CREAT | 0600);
    CHECK(sysvmsg_hold(holder, queue, &message, 99, 0, 0, SYSVMSG_NOWAIT) == -1 && errno == ENOMSG);
    CHECK(sysvmsg_hold(holder, queue, &message, 99, 0, 0, 100) == -1 && errno == ETIMEDOUT);
    CHECK(sysvmsg_done(holder) == -1 && errno == EINVAL);
    CHECK(sysvmsg_back(holder) == -1 && errno == EINVAL);
    CHECK(send_text(server, queue, 5, "once", 10000) == 0 && holds(holder, queue, 5, "once"));
    CHECK(sysvmsg_hold(holder, queue, &message, 99, 0, 0, 10000) == -1 && errno == EINVAL);
    CHECK(sysvmsg_done(holder) == 0 && sysvmsg_done(holder) == -1 && errno == EINVAL);
    CHECK(send_text(server, queue, 6, "again", 10000) == 0 && holds(holder, queue, 6, "again"));
    CHECK(sysvmsg_back(holder) == 0 && sysvmsg_back(holder) == -1 && errno == EINVAL);
    CHECK(holds(holder, queue, 6, "again"));
    CHECK(sysvmsg_retry(holder, 10000) == 0 && holds(holder, queue, 6, "again"));
    sysvmsg_close(holder);
    CHECK(receives(server, queue, 0, "again"));
    CHECK(sysvmsg_stat(server, queue, &stat) == 0 && stat.qnum == 0);
    sysvmsg_close(server);
}

/* A message that is given back is the last one of its queue, and the session goes on, also if the
 * message cannot come back. */
static void try_back(void)
{
    struct sysvmsg *server = open_server(), *holder = sysvmsg_open_holding(path, 10000);
    int queue = sysvmsg_get(server, KEY, SYSVMSG_CREAT | 0600);
    CHECK(holder && send_text(server, queue, 5, "first", 10000) == 0);
    CHECK(send_text(server, queue, 6, "second", 10000) == 0 && holds(holder, queue, 5, "first"));
    CHECK(sysvmsg_back(holder) == 0);
    CHECK(sysvmsg_back(holder) == -1 && errno == EINVAL);
    CHECK(sysvmsg_done(holder) == -1 && errno == EINVAL);
    CHECK(holds(holder, queue, 6, "second") && sysvmsg_back(holder) == 0);
    CHECK(receives(server, queue, 0, "first") && holds(holder, queue, 6, "second"));
    CHECK(sysvmsg_rm(server, queue) == 0);
    CHECK(sysvmsg_back(holder) == -1 && errno == EINVAL);
    queue = sysvmsg_get(server, KEY, SYSVMSG_CREAT | 0600);
    CHECK(send_text(server, queue, 7, "kept", 10000) == 0 && holds(holder, queue, 7, "kept"));
    CHECK(sysvmsg_back(holder) == 0 && receives(server, queue, 0, "kept"));
    sysvmsg_close(holder);
    sysvmsg_close(server);
}

/* Holds a message of type 5 for a second, and waits until its time is over and a queue has a number
 * of messages. */
static void hold_too_long(struct sysvmsg *holder, int queue, const char *text, uint32_t wanted)
{
    struct sysvmsg_message message;
    struct sysvmsg_stat stat;
    ssize_t size = (ssize_t)strlen(text);
    CHECK(sysvmsg_hold_for(holder, queue, &message, 99, 5, 0, 10000, 1) == size
          && memcmp(message.body, text, (size_t)size) == 0);
    CHECK(sysvmsg_stat(holder, queue, &stat) == 0 && stat.qnum == wanted - 1);
    usleep(1000000);
    for (int i = 0; i < 500 && stat.qnum != wanted; i++) {
        usleep(20000);
        CHECK(sysvmsg_stat(holder, queue, &stat) == 0);
    }
    CHECK(stat.qnum == wanted);
}

/* A message whose time is over comes back, and the session goes on and holds nothing. */
static void try_hold_for(void)
{
    struct sysvmsg *server = open_server(), *holder = sysvmsg_open_holding(path, 10000);
    struct sysvmsg_message message;
    int queue = sysvmsg_get(server, KEY, SYSVMSG_CREAT | 0600);
    CHECK(holder && send_text(server, queue, 5, "late", 10000) == 0);
    CHECK(send_text(server, queue, 6, "other", 10000) == 0);
    hold_too_long(holder, queue, "late", 2);
    CHECK(sysvmsg_done(holder) == -1 && errno == EINVAL);
    hold_too_long(holder, queue, "late", 2);
    CHECK(sysvmsg_back(holder) == -1 && errno == EINVAL);
    CHECK(sysvmsg_back(holder) == -1 && errno == EINVAL);
    /* (the next hold need not wait for either of them) */
    hold_too_long(holder, queue, "late", 2);
    CHECK(holds(holder, queue, 6, "other"));
    CHECK(sysvmsg_hold_for(holder, queue, &message, 99, 0, 0, 0, 1) == -1 && errno == EINVAL);
    CHECK(sysvmsg_done(holder) == 0 && receives(server, queue, 0, "late"));
    /* A message that is done with in time does not come back. */
    CHECK(send_text(server, queue, 5, "done", 10000) == 0);
    CHECK(sysvmsg_hold_for(holder, queue, &message, 99, 0, 0, 0, 1) == 4);
    CHECK(sysvmsg_done(holder) == 0);
    CHECK(sysvmsg_rcv(server, queue, &message, 99, 0, 0, 1500) == -1 && errno == ETIMEDOUT);
    sysvmsg_close(holder);
    sysvmsg_close(server);
}

/* So is one that this user may no longer send. */
static void try_back_denied(void)
{
    if (geteuid() == 0)
        CHECK(setresgid(1000, 1000, 1000) == 0 && setresuid(1000, 1000, 1000) == 0);
    struct sysvmsg *owner = sysvmsg_open_as(path, geteuid() + 1, getegid() + 1, 10000);
    struct sysvmsg *holder = sysvmsg_open_holding(path, 10000);
    struct sysvmsg_set set = {geteuid() + 1, getegid() + 1, 0444, 16384};
    struct sysvmsg_message message;
    struct sysvmsg_stat stat;
    int queue = sysvmsg_get(owner, KEY, SYSVMSG_CREAT | 0666);
    CHECK(holder && send_text(owner, queue, 5, "kept", 10000) == 0);
    CHECK(holds(holder, queue, 5, "kept") && sysvmsg_set(owner, queue, &set) == 0);
    CHECK(sysvmsg_back(holder) == -1 && errno == EACCES);
    CHECK(sysvmsg_back(holder) == -1 && errno == EINVAL);
    CHECK(sysvmsg_stat(owner, queue, &stat) == 0 && stat.qnum == 0);
    set.mode = 0666;
    CHECK(sysvmsg_set(owner, queue, &set) == 0 && send_text(owner, queue, 6, "x", 10000) == 0);
    set.mode = 0444;
    CHECK(sysvmsg_set(owner, queue, &set) == 0);
    CHECK(sysvmsg_hold(holder, queue, &message, 9, 0, 0, SYSVMSG_NOWAIT) == -1 && errno == EACCES);
    CHECK(sysvmsg_rcv(holder, queue, &message, 9, 0, 0, SYSVMSG_NOWAIT) == 1);
    sysvmsg_close(holder);
    sysvmsg_close(owner);
}

/* Holds a message, and fills its queue. */
static void hold_and_fill(struct sysvmsg *server, struct sysvmsg *holder, int queue)
{
    struct sysvmsg_message message = {.type = 2};
    CHECK(send_text(server, queue, 5, "back", 10000) == 0 && holds(holder, queue, 5, "back"));
    while (sysvmsg_snd(server, queue, &message, sizeof message.body, SYSVMSG_NOWAIT) == 0)
        ;
    CHECK(errno == EAGAIN);
}

/* If the queue has no room, the session ends, so that the only consumer can go on, and the message
 * comes back once there is room. A signal handler ends the wait too. */
static void try_back_full(void)
{
    struct sysvmsg *server = open_server(), *holder = sysvmsg_open_holding(path, 10000);
    struct sysvmsg_message message;
    struct sigaction action = {.sa_handler = note};
    CHECK(holder && sigaction(SIGALRM, &action, NULL) == 0);
    for (int round = 0; round < 2; round++) {
        int queue = sysvmsg_get(server, KEY, SYSVMSG_CREAT | 0600);
        hold_and_fill(server, holder, queue);
        if (round == 1)
            ualarm(20000, 0);
        CHECK(sysvmsg_back(holder) == 0);
        CHECK(sysvmsg_back(holder) == -1 && errno == EINVAL);
        CHECK(sysvmsg_hold(holder, queue, &message, sizeof message.body, 2, 0, 10000) > 0);
        CHECK(sysvmsg_done(holder) == 0 && receives(server, queue, 5, "back"));
        CHECK(sysvmsg_rm(server, queue) == 0);
    }
    sysvmsg_close(holder);
    sysvmsg_close(server);
}

/* A message that a hold gets when its time is over comes back, and is not held. */
static void try_hold_late(void)
{
    struct sysvmsg *holder = sysvmsg_open_holding(path, 10000);
    struct sysvmsg_message message;
    CHECK(holder && sysvmsg_hold(holder, 0, &message, 99, 0, 0, 200) == -1 && errno == ETIMEDOUT);
    CHECK(sysvmsg_done(holder) == -1 && errno == EINVAL);
    sysvmsg_close(holder);
}

/* A call that waits and whose time is over ends no session that holds a message, and a hold keeps
 * to the bounds of a receive. */
static void try_hold_apart(void)
{
    struct sysvmsg *server = open_server(), *holder = sysvmsg_open_holding(path, 10000);
    struct sysvmsg_message message;
    struct sysvmsg_stat stat;
    int queue = sysvmsg_get(server, KEY, SYSVMSG_CREAT | 0600);
    int other = sysvmsg_get(server, KEY + 1, SYSVMSG_CREAT | 0600);
    CHECK(holder && send_text(server, queue, 5, "four", 10000) == 0);
    CHECK(sysvmsg_hold(holder, queue, &message, 3, 0, 0, 0) == -1 && errno == E2BIG);
    CHECK(sysvmsg_hold(holder, queue, &message, 3, 0, SYSVMSG_NOERROR, 0) == -1 && errno == EINVAL);
    CHECK(sysvmsg_hold(holder, queue, &message, 9, 5, SYSVMSG_EXCEPT, 0) == -1 && errno == ENOMSG);
    CHECK(sysvmsg_hold(holder, queue, NULL, 9, 0, 0, 0) == -1 && errno == EFAULT);
    CHECK(sysvmsg_hold(holder, queue, &message, 9, -7, 0, 0) == 4);
    CHECK(sysvmsg_rcv(holder, other, &message, 9, 0, 0, 100) == -1 && errno == ETIMEDOUT);
    CHECK(send_text(holder, other, 1, "found", 10000) == 0 && receives(holder, other, 0, "found"));
    CHECK(sysvmsg_stat(server, queue, &stat) == 0 && stat.qnum == 0);
    CHECK(sysvmsg_done(holder) == 0);
    sysvmsg_close(holder);
    sleep_micros(200000);
    CHECK(sysvmsg_stat(server, queue, &stat) == 0 && stat.qnum == 0);
    sysvmsg_close(server);
}

/* The messages of a process that is killed come back, and a child of fork does not end its parent's
 * session. */
static void try_hold_killed(void)
{
    struct sysvmsg *server = open_server();
    int queue = sysvmsg_get(server, KEY, SYSVMSG_CREAT | 0600), status;
    CHECK(send_text(server, queue, 5, "kept", 10000) == 0);
    pid_t child = fork();
    if (child == 0) {
        struct sysvmsg *holder = sysvmsg_open_holding(path, 10000);
        CHECK(holder && holds(holder, queue, 5, "kept"));
        pid_t forked = fork();
        if (forked == 0)
            _exit(sysvmsg_done(holder) == -1 && errno == EINVAL ? 0 : 1);
        CHECK(waitpid(forked, &status, 0) == forked && status == 0);
        struct sysvmsg_stat stat;
        CHECK(sysvmsg_stat(server, queue, &stat) == 0 && stat.qnum == 0);
        kill(getpid(), SIGKILL);
    }
    CHECK(waitpid(child, &status, 0) == child && WIFSIGNALED(status));
    CHECK(WTERMSIG(status) == SIGKILL && receives(server, queue, 0, "kept"));
    sysvmsg_close(server);
}

/* A server that reads no version 3 is reported, and so is a connection that does not speak it. */
static void try_hold_refused(void)
{
    struct sysvmsg *server = open_server();
    struct sysvmsg_message message;
    int queue = sysvmsg_get(server, KEY, SYSVMSG_CREAT | 0600);
    CHECK(!sysvmsg_open_holding(path, 10000) && errno == EPROTONOSUPPORT);
    CHECK(sysvmsg_hold(server, queue, &message, 9, 0, 0, 0) == -1 && errno == EPROTONOSUPPORT);
    CHECK(
        sysvmsg_hold_for(server, queue, &message, 9, 0, 0, 0, 1) == -1 && errno == EPROTONOSUPPORT);
    CHECK(sysvmsg_done(server) == -1 && errno == EPROTONOSUPPORT);
    CHECK(send_text(server, queue, 5, "kept", 10000) == 0 && receives(server, queue, 0, "kept"));
    sysvmsg_close(server);
}

/* A connection that is closed leaves room for another one, and too many are refused. */
static void try_many(void)
{
    static struct sysvmsg *all[250];
    for (int round = 0; round < 6; round++) {
        for (int i = 0; i < 250; i++)
            CHECK((all[i] = sysvmsg_open(path, 10000)));
        for (int i = 0; i < 250; i++)
            sysvmsg_close(all[i]);
    }
}

int main(int count, char **words)
{
    static const struct {
        const char *name;
        void (*part)(void);
    } parts[] = {{"limits", try_limits}, {"races", try_races}, {"threads", try_threads},
        {"fork", try_fork}, {"signal", try_signal}, {"cancel", try_cancel},
        {"no-place", try_no_place}, {"no-server", try_no_server}, {"faults", try_faults},
        {"no-connection", try_no_connection}, {"many", try_many}, {"restart", try_restart},
        {"hold", try_hold}, {"hold-apart", try_hold_apart}, {"hold-killed", try_hold_killed},
        {"hold-refused", try_hold_refused}, {"back", try_back}, {"back-denied", try_back_denied},
        {"back-full", try_back_full}, {"hold-late", try_hold_late}, {"hold-for", try_hold_for},
        {"outcomes", try_outcomes}, {"outcome-of-thread", try_outcome_of_thread},
        {"restart-apart", try_restart_apart}, {"open-retry", try_open_retry},
        {"same-server", try_same_server}};
    if (count < 3)
        return 2;
    path = words[2];
    if (strcmp(words[1], "call") == 0 || strcmp(words[1], "call-holding") == 0) {
        try_call(strcmp(words[1], "call") != 0, words + 3);
        return 0;
    }
    for (size_t i = 0; i < sizeof parts / sizeof *parts; i++) {
        if (strcmp(words[1], parts[i].name) == 0) {
            parts[i].part();
            return 0;
        }
    }
    return 2;
}
