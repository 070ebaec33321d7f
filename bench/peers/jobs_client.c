/* N senders and N receivers on one queue of a server, each a process with a connection of its own to a Unix socket.
 *   jobs_client WAY PATH PAIRS MILLISECONDS PID
 * WAY is a way to send and to receive: sysvmsg (a send; a receive that waits), redis (LPUSH; BRPOP), or one of those that
 * give a message again if its receiver dies before it is done: hold (a send; a hold that waits, then a done), lmove
 * (LPUSH; BLMOVE to a list of the receiver, then LREM) or beanstalkd (put; reserve, then delete). What spends a message is
 * sent together with the request for the next one. PAIRS is N, 1 to 1000. PID is the process of the server. Its queue must
 * be new or empty.
 *
 * The receivers wait before the first send. The senders send messages of 64 bytes for the given time, each as soon as
 * it has the reply to its last message. Then one message per receiver, behind all others, ends the receivers. It prints
 * the messages per second, from the first send to the last receipt; the 99th percentile of the time from a send to its
 * receipt, in microseconds; and the processor time of the server per message, in microseconds. It prints an error
 * instead and ends with status 1 if a message was lost, came twice or was never sent, if a client failed, or if the run
 * is not over 16 seconds after the end of the sending.
 */
#define _GNU_SOURCE
#include <inttypes.h>
#include <signal.h>
#include <stdint.h>
#include <stdio.h>
#include <stdlib.h>
#include <string.h>
#include <sys/mman.h>
#include <sys/prctl.h>
#include <sys/socket.h>
#include <sys/un.h>
#include <sys/wait.h>
#include <time.h>
#include <unistd.h>

#define BODY 64
#define MOST 1000
#define GRACE 15
#define STOP UINT32_MAX
#define BROKEN (UINT32_MAX - 1)

/* A message. */
struct job {
    int64_t sent;
    uint32_t sender, number;
    char fill[BODY - 16];
};
_Static_assert(sizeof(struct job) == BODY, "a message has 64 bytes");

/* What a receiver notes of a message. */
struct receipt {
    uint32_t sender, number;
    int64_t delay;
};

/* What all processes share. Each receiver has `most` receipts of its own. */
struct shared {
    int64_t start, last[MOST];
    uint32_t sent[MOST], received[MOST];
    struct receipt receipts[];
};

/* A connection: its request to send, with the place of the body, its request to receive, what spends the message that is
 * held, if one is, and the reply to the last. */
struct peer {
    int fd;
    char send[160], take[96], done[256], reply[512];
    size_t body, send_count, take_count, done_count, count;
};

/* A way to send and to receive. `sent`, `took` and `spent` read a reply. `took` is given its place, and returns that of
 * the body; `spent` returns the length of the reply. `keep` prepares what spends the message with this body, whose reply
 * has this place; without it a message that was received is gone. */
struct way {
    const char *name;
    void (*open)(struct peer *);
    void (*sent)(struct peer *);
    size_t (*took)(struct peer *, size_t at);
    void (*keep)(struct peer *, size_t at, const char *body);
    size_t (*spent)(struct peer *);
};

static const char *doing;
static char too_long[160];
static struct shared *shared;
static uint32_t most;

static void fail(const char *what) {
    fprintf(stderr, "jobs: %s: %s\n", doing, what);
    exit(1);
}

static int64_t now(void) {
    struct timespec at;
    clock_gettime(CLOCK_MONOTONIC, &at);
    return at.tv_sec * INT64_C(1000000000) + at.tv_nsec;
}

/* Writes a request; the reply is still to be read. */
static void ask(struct peer *peer, const char *bytes, size_t count) {
    peer->count = 0;
    while (count > 0) {
        ssize_t wrote = write(peer->fd, bytes, count);
        if (wrote <= 0) fail("a request cannot be written");
        bytes += wrote;
        count -= (size_t)wrote;
    }
}

/* Reads until the reply has so many bytes. */
static void read_to(struct peer *peer, size_t wanted) {
    while (peer->count < wanted) {
        ssize_t got = read(peer->fd, peer->reply + peer->count, sizeof peer->reply - peer->count);
        if (got <= 0) fail("a reply ends too early");
        peer->count += (size_t)got;
    }
}

/* Reads the line of the reply at this place, which must begin like this, and returns the place after it. */
static size_t read_line(struct peer *peer, size_t at, const char *wanted) {
    char *line = peer->reply + at, *end;
    read_to(peer, at + 1);
    while ((end = memchr(line, '\n', peer->count - at)) == NULL) read_to(peer, peer->count + 1);
    size_t count = (size_t)(end - line) + 1;
    if (count < strlen(wanted) || memcmp(line, wanted, strlen(wanted)) != 0) {
        *(end > line && end[-1] == '\r' ? end - 1 : end) = '\0';
        fail(line);
    }
    return at + count;
}

/* The frames of sysvmsg: see docs/wire.md. */
static char *number(char *at, uint64_t value, int bytes) {
    for (int i = bytes - 1; i >= 0; i--) *at++ = (char)(value >> (8 * i));
    return at;
}

static char *begin(char *frame, int operation, uint32_t fields) {
    return number(number(number(frame, fields + 2, 4), 1, 1), (uint64_t)operation, 1);
}

/* Reads a frame of so many bytes at this place of the reply, and returns the place after it. */
static size_t read_frame(struct peer *peer, size_t at, size_t wanted) {
    read_to(peer, at + 7);
    if (peer->reply[at + 6] != 0) fail("the server's reply is an error");
    read_to(peer, at + wanted);
    return at + wanted;
}

static void sysvmsg_open_as(struct peer *peer, char version) {
    char frame[32];
    char *at = begin(frame, 0, 12);
    frame[4] = version;
    at = number(number(number(at, 1000, 4), 1000, 4), (uint64_t)getpid(), 4);
    ask(peer, frame, (size_t)(at - frame));
    read_frame(peer, 0, version == 1 ? 7 : 11);
    at = number(number(begin(frame, 1, 8), 7, 4), 01000 + 0600, 4);
    frame[4] = version;
    ask(peer, frame, (size_t)(at - frame));
    read_frame(peer, 0, 11);
    const char *id = peer->reply + 7;

    at = begin(peer->send, 2, 16 + BODY);
    at = number(number((char *)mempcpy(at, id, 4), 1, 8), 0, 4);
    peer->body = (size_t)(at - peer->send);
    peer->send_count = peer->body + BODY;
    at = begin(peer->take, 3, 20);
    at = number(number(number((char *)mempcpy(at, id, 4), BODY, 4), 0, 8), 0, 4);
    peer->take_count = (size_t)(at - peer->take);
}

static void sysvmsg_open(struct peer *peer) { sysvmsg_open_as(peer, 1); }

static void sysvmsg_sent(struct peer *peer) { read_frame(peer, 0, 7); }

static size_t sysvmsg_took(struct peer *peer, size_t at) { return read_frame(peer, at, 15 + BODY) - BODY; }

static void hold_open(struct peer *peer) {
    sysvmsg_open_as(peer, 3);
    char id[4], *at;
    memcpy(id, peer->send + 6, 4);
    at = begin(peer->take, 8, 24);
    at = number(number(number((char *)mempcpy(at, id, 4), BODY, 4), 0, 8), 0, 8);
    peer->send[4] = peer->take[4] = 3;
    peer->take_count = (size_t)(at - peer->take);
}

static void hold_keep(struct peer *peer, size_t at, const char *body) {
    (void)at, (void)body;
    peer->done_count = (size_t)(begin(peer->done, 9, 0) - peer->done);
    peer->done[4] = 3;
}

static size_t hold_spent(struct peer *peer) { return read_frame(peer, 0, 7); }

/* Prepares requests that are text: what is before the body, and CR and LF behind it. */
static void open_text(struct peer *peer, const char *send, const char *take) {
    peer->body = strlen(send);
    memcpy(peer->send, send, peer->body);
    memcpy(peer->send + peer->body + BODY, "\r\n", 2);
    peer->send_count = peer->body + BODY + 2;
    peer->take_count = strlen(take);
    memcpy(peer->take, take, peer->take_count);
}

static void redis_open(struct peer *peer) {
    open_text(peer, "*3\r\n$5\r\nLPUSH\r\n$4\r\njobs\r\n$64\r\n", "*3\r\n$5\r\nBRPOP\r\n$4\r\njobs\r\n$1\r\n0\r\n");
}

static void redis_sent(struct peer *peer) { read_line(peer, 0, ":"); }

static size_t redis_took(struct peer *peer, size_t at) {
    static const char head[] = "*2\r\n$4\r\njobs\r\n$64\r\n";
    size_t body = at + sizeof head - 1;
    read_line(peer, at, "*2\r\n");
    read_to(peer, body + BODY + 2);
    if (memcmp(peer->reply + at, head, sizeof head - 1) != 0) fail("the reply is no message of 64 bytes");
    return body;
}

/* Each receiver moves its message to a list of its own, whose name has ten digits. */
static void lmove_open(struct peer *peer) {
    char take[96];
    snprintf(take, sizeof take, "*6\r\n$6\r\nBLMOVE\r\n$4\r\njobs\r\n$10\r\n%010d\r\n$5\r\nRIGHT\r\n$4\r\nLEFT\r\n$1\r\n0\r\n",
             (int)getpid());
    open_text(peer, "*3\r\n$5\r\nLPUSH\r\n$4\r\njobs\r\n$64\r\n", take);
}

static size_t lmove_took(struct peer *peer, size_t at) {
    size_t body = read_line(peer, at, "$64\r\n");
    read_to(peer, body + BODY + 2);
    return body;
}

static void lmove_keep(struct peer *peer, size_t at, const char *body) {
    (void)at;
    int head = snprintf(peer->done, sizeof peer->done, "*4\r\n$4\r\nLREM\r\n$10\r\n%010d\r\n$1\r\n1\r\n$64\r\n", (int)getpid());
    memcpy(mempcpy(peer->done + head, body, BODY), "\r\n", 2);
    peer->done_count = (size_t)head + BODY + 2;
}

static size_t lmove_spent(struct peer *peer) { return read_line(peer, 0, ":1"); }

static void beanstalkd_open(struct peer *peer) { open_text(peer, "put 0 0 600 64\r\n", "reserve\r\n"); }

static void beanstalkd_sent(struct peer *peer) { read_line(peer, 0, "INSERTED "); }

static size_t beanstalkd_took(struct peer *peer, size_t at) {
    size_t body = read_line(peer, at, "RESERVED ");
    read_to(peer, body + BODY + 2);
    return body;
}

static void beanstalkd_keep(struct peer *peer, size_t at, const char *body) {
    (void)body;
    unsigned long long id = strtoull(peer->reply + at + strlen("RESERVED "), NULL, 10);
    peer->done_count = (size_t)snprintf(peer->done, sizeof peer->done, "delete %llu\r\n", id);
}

static size_t beanstalkd_spent(struct peer *peer) { return read_line(peer, 0, "DELETED"); }

static const struct way WAYS[] = {
    {"sysvmsg", sysvmsg_open, sysvmsg_sent, sysvmsg_took, NULL, NULL},
    {"hold", hold_open, sysvmsg_sent, sysvmsg_took, hold_keep, hold_spent},
    {"redis", redis_open, redis_sent, redis_took, NULL, NULL},
    {"lmove", lmove_open, redis_sent, lmove_took, lmove_keep, lmove_spent},
    {"beanstalkd", beanstalkd_open, beanstalkd_sent, beanstalkd_took, beanstalkd_keep, beanstalkd_spent},
};

static void open_peer(const struct way *way, struct peer *peer, const char *path) {
    struct sockaddr_un name = {.sun_family = AF_UNIX};
    strncpy(name.sun_path, path, sizeof name.sun_path - 1);
    peer->fd = socket(AF_UNIX, SOCK_STREAM, 0);
    for (int tries = 0; connect(peer->fd, (struct sockaddr *)&name, sizeof name) != 0; tries++) {
        if (tries == 500) fail("a client cannot connect");
        usleep(10000);
    }
    way->open(peer);
}

static void send_job(const struct way *way, struct peer *peer, const struct job *job) {
    memcpy(peer->send + peer->body, job, BODY);
    ask(peer, peer->send, peer->send_count);
    way->sent(peer);
}

/* Spends the message that is held, if one is, and receives the next one. Returns the time of its receipt. */
static int64_t receive_job(const struct way *way, struct peer *peer, struct job *job) {
    char both[sizeof peer->done + sizeof peer->take];
    memcpy(mempcpy(both, peer->done, peer->done_count), peer->take, peer->take_count);
    ask(peer, both, peer->done_count + peer->take_count);
    size_t at = peer->done_count ? way->spent(peer) : 0;
    const char *body = peer->reply + way->took(peer, at);
    int64_t time = now();
    memcpy(job, body, BODY);
    if (way->keep) way->keep(peer, at, body);
    return time;
}

static void fill(struct job *job) { memset(job->fill, 'x', sizeof job->fill); }

static int is_whole(const struct job *job) {
    struct job wanted;
    fill(&wanted);
    return memcmp(job->fill, wanted.fill, sizeof wanted.fill) == 0;
}

static void send_all(const struct way *way, struct peer *peer, uint32_t me, int64_t milliseconds) {
    struct job job = {.sender = me};
    int64_t end = shared->start + milliseconds * 1000000;
    fill(&job);
    while ((job.sent = now()) < end) {
        send_job(way, peer, &job);
        job.number++;
    }
    shared->sent[me] = job.number;
}

static void receive_all(const struct way *way, struct peer *peer, uint32_t me) {
    struct receipt *receipts = shared->receipts + (size_t)me * most;
    struct job job;
    uint32_t count = 0;
    for (;;) {
        int64_t at = receive_job(way, peer, &job);
        uint32_t sender = is_whole(&job) ? job.sender : BROKEN;
        if (sender == STOP) break;
        if (count == most) fail("a receiver got more messages than it can note");
        receipts[count++] = (struct receipt){sender, job.number, at - job.sent};
        shared->last[me] = at;
    }
    if (peer->done_count) {
        ask(peer, peer->done, peer->done_count);
        way->spent(peer);
    }
    shared->received[me] = count;
}

static void when_too_long(int signal) {
    (void)signal;
    if (write(2, too_long, strlen(too_long)) < 0) _exit(2);
    _exit(1);
}

/* A client that fails before the start has said why. */
static void when_child_ended(int signal) {
    (void)signal;
    _exit(1);
}

/* A client, by its number: first come the receivers, then the senders. It reports that it is ready, and a sender awaits
 * the start. */
static void client(const struct way *way, const char *path, int which, int pairs, int64_t milliseconds,
                   const int *ready, const int *go) {
    struct peer peer = {0};
    char byte = 0;
    prctl(PR_SET_PDEATHSIG, SIGKILL);
    close(go[1]);
    open_peer(way, &peer, path);
    if (write(ready[1], &byte, 1) != 1) fail("a client cannot report");
    if (which < pairs) {
        receive_all(way, &peer, (uint32_t)which);
    } else {
        if (read(go[0], &byte, 1) != 0) fail("a client cannot await the start");
        send_all(way, &peer, (uint32_t)(which - pairs), milliseconds);
    }
    exit(0);
}

/* Awaits the ends of so many clients. Receivers end last. */
static void reap(int count) {
    int status;
    for (int i = 0; i < count; i++) {
        if (wait(&status) < 0) fail("a client is gone");
        if (WIFSIGNALED(status)) fail("a client was killed");
        if (status != 0) exit(1);
    }
}

/* Lets the messages pass, and returns the processor time of the server meanwhile, in nanoseconds. */
static int64_t run(const struct way *way, const char *path, int pairs, int64_t milliseconds, clockid_t server) {
    struct peer peer = {0};
    struct job stop = {.sender = STOP};
    struct timespec before, after, pause = {.tv_nsec = 50000000 + pairs * 500000L};
    int ready[2], go[2];
    char byte;
    fill(&stop);
    open_peer(way, &peer, path);
    if (pipe(ready) != 0 || pipe(go) != 0) fail("there is no pipe");
    signal(SIGCHLD, when_child_ended);
    for (int which = 0; which < 2 * pairs; which++) {
        pid_t child = fork();
        if (child == 0) client(way, path, which, pairs, milliseconds, ready, go);
        if (child < 0) fail("a client cannot be started");
    }
    for (int i = 0; i < 2 * pairs; i++)
        if (read(ready[0], &byte, 1) != 1) fail("a client is not ready");
    signal(SIGCHLD, SIG_DFL);
    nanosleep(&pause, NULL);
    clock_gettime(server, &before);
    shared->start = now();
    close(go[1]);
    reap(pairs);
    for (int i = 0; i < pairs; i++) send_job(way, &peer, &stop);
    reap(pairs);
    clock_gettime(server, &after);
    return (after.tv_sec - before.tv_sec) * INT64_C(1000000000) + after.tv_nsec - before.tv_nsec;
}

static int by_size(const void *one, const void *two) {
    int64_t a = *(const int64_t *)one, b = *(const int64_t *)two;
    return (a > b) - (a < b);
}

/* Judges the receipts, copies their delays, and returns how many there are. Each message must have come once. */
static size_t judge(int pairs, int64_t *delays) {
    size_t places[MOST + 1] = {0}, got = 0, twice = 0, strange = 0;
    for (int i = 0; i < pairs; i++) places[i + 1] = places[i] + shared->sent[i];
    size_t sent = places[pairs], found = 0;
    char *seen = calloc(sent + 1, 1);
    if (seen == NULL) fail("no memory");
    for (size_t i = 0; i < (size_t)pairs; i++) {
        for (size_t j = 0; j < shared->received[i]; j++) {
            struct receipt *one = shared->receipts + i * most + j;
            int is_known = one->sender < (uint32_t)pairs && one->number < shared->sent[one->sender];
            char *mark = is_known ? seen + places[one->sender] + one->number : NULL;
            delays[got++] = one->delay;
            strange += !is_known;
            twice += is_known && *mark;
            found += is_known && !*mark;
            if (is_known) *mark = 1;
        }
    }
    if (found != sent || twice + strange > 0 || sent == 0) {
        fprintf(stderr, "jobs: %s: of %zu messages %zu lost, %zu came twice, %zu were never sent\n", doing, sent,
                sent - found, twice, strange);
        exit(1);
    }
    return got;
}

static void report(int pairs, int64_t processor) {
    size_t room = 0;
    int64_t last = 0;
    for (int i = 0; i < pairs; i++) {
        room += shared->received[i];
        if (shared->last[i] > last) last = shared->last[i];
    }
    int64_t *delays = malloc((room + 1) * sizeof *delays);
    if (delays == NULL) fail("no memory");
    size_t count = judge(pairs, delays);
    qsort(delays, count, sizeof *delays, by_size);
    printf("%.0f %.1f %.2f\n", (double)count * 1e9 / (double)(last - shared->start),
           (double)delays[count - count / 100 - 1] / 1e3, (double)processor / 1e3 / (double)count);
}

int main(int argc, char **argv) {
    const struct way *way = WAYS, *end = WAYS + sizeof WAYS / sizeof *WAYS;
    while (argc == 6 && way < end && strcmp(way->name, argv[1]) != 0) way++;
    int pairs = argc == 6 ? atoi(argv[3]) : 0, milliseconds = argc == 6 ? atoi(argv[4]) : 0;
    if (argc != 6 || way == end || pairs < 1 || pairs > MOST || milliseconds < 1 || milliseconds > 60000) {
        fputs("jobs_client sysvmsg|hold|redis|lmove|beanstalkd PATH PAIRS MILLISECONDS PID\n", stderr);
        return 2;
    }
    char named[64];
    clockid_t server;
    snprintf(named, sizeof named, "%s, %d and %d", way->name, pairs, pairs);
    doing = named;
    if (clock_getcpuclockid(atoi(argv[5]), &server) != 0) fail("the server has no processor time");
    most = (uint32_t)milliseconds * 1000;
    size_t room = sizeof *shared + (size_t)pairs * most * sizeof *shared->receipts;
    shared = mmap(NULL, room, PROT_READ | PROT_WRITE, MAP_SHARED | MAP_ANONYMOUS | MAP_NORESERVE, -1, 0);
    if (shared == MAP_FAILED) fail("no memory");
    int limit = milliseconds / 1000 + 1 + GRACE;
    snprintf(too_long, sizeof too_long,
             "jobs: %s: not over after %d seconds: a message is lost, or the server is stuck\n", doing, limit);
    signal(SIGALRM, when_too_long);
    alarm((unsigned)limit);
    report(pairs, run(way, argv[2], pairs, milliseconds, server));
    return 0;
}
