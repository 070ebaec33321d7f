/* Many clients of a server, each with a connection of its own to a Unix socket.
 *   many_client greet WAY PATH PID CLIENTS
 *   many_client wait WAY PATH PID CLIENTS REST MESSAGES
 *   many_client pipe WAY PATH PID DEPTH MILLISECONDS
 *   many_client trips WAY PATH PID CLIENTS MILLISECONDS
 *   many_client beside WAY PATH PID CLIENTS MILLISECONDS
 * WAY is sysvmsg (a send; a receive that waits) or redis (LPUSH; BRPOP). PID is the process of the
 * server, which must be new. Messages have 64 bytes.
 *
 * greet: connects the clients, 64 at once. Each sends a hello (PING) and reads the reply. It prints
 * the clients per second; the server's resident memory in kB, with one client before them and with
 * all of them; and the number of the server's descriptors, with one client and with all of them.
 *
 * wait: each client waits for a message of its own type (on a list of its own). It prints the
 * processor time of the server in REST milliseconds, in microseconds, and its voluntary context
 * switches. Then one more client sends MESSAGES messages to clients chosen at random, each of them
 * a millisecond after the receipt of the last. It prints the median and the 99th percentile of the
 * time from a send to its receipt, and the processor time of the server per message, in
 * microseconds.
 *
 * pipe: one client writes DEPTH requests at once, sends and receives in turn, and reads their
 * replies, over and over. It prints the requests per second.
 *
 * trips: each client sends a message on a queue of requests and then waits for the answer, which
 * has its own type on a second queue (on a list of its own). One more client, in a process of its
 * own, receives a request and sends its answer, over and over. It prints the answers per second;
 * the 99th percentile of the time from a request to its answer, and the processor time of the
 * server per answer, in microseconds.
 *
 * beside: the clients, in a process of their own, each send themselves a message and receive it,
 * over and over. One more client does the same. It prints the median, the 99th percentile and the
 * 99.9th percentile of the time that this client needs for a send and its receive, in microseconds.
 *
 * It prints an error instead and ends with status 1 if a message was lost or is not the expected
 * one, if a request failed, or if the run takes 30 seconds longer than it should.
 */
#define _GNU_SOURCE
#include <dirent.h>
#include <errno.h>
#include <inttypes.h>
#include <signal.h>
#include <stdint.h>
#include <stdio.h>
#include <stdlib.h>
#include <string.h>
#include <sys/epoll.h>
#include <sys/prctl.h>
#include <sys/socket.h>
#include <sys/un.h>
#include <time.h>
#include <unistd.h>

#define BODY 64
#define REQUEST 160
#define REPLY 128
#define AT_ONCE 64
#define MOST_CLIENTS 100000
#define MOST_DEPTH 1024
#define MOST_TIME 600000
#define GRACE 30
/* Where requests go: the other places are the clients' own, from 0. */
#define TO_ANSWERER (-1)

/* A message to or from a client. */
struct message {
    uint32_t client, number;
    char fill[BODY - 8];
};
_Static_assert(sizeof(struct message) == BODY, "a message has 64 bytes");

/* A connection, and the bytes of its replies that are not yet taken. */
struct link {
    int fd;
    char *replies;
    size_t room, from, count;
};

/* A kind of server. The functions with `at` write a request there and return its length. `whole`
 * returns the length of the first reply in the bytes, or 0 if it is not whole, and does not return
 * if it is an error. A reply to a take ends with the message and `tail` bytes. */
struct way {
    const char *name;
    size_t (*hello)(char *at);
    void (*prepare)(struct link *);
    size_t (*send)(char *at, int place, const struct message *);
    size_t (*take)(char *at, int place);
    size_t (*whole)(const char *bytes, size_t count);
    size_t tail;
};

static const struct way *way;
static const char *path;
static clockid_t server;
static int server_pid;
static char doing[64];
static char too_long[160];

static void fail(const char *what)
{
    fprintf(stderr, "many: %s: %s\n", doing, what);
    exit(1);
}

static int64_t nanoseconds(clockid_t clock)
{
    struct timespec at;
    clock_gettime(clock, &at);
    return at.tv_sec * INT64_C(1000000000) + at.tv_nsec;
}

static int64_t now(void) { return nanoseconds(CLOCK_MONOTONIC); }

static void pause_for(int milliseconds)
{
    struct timespec time = {milliseconds / 1000, milliseconds % 1000 * 1000000L};
    nanosleep(&time, NULL);
}

static void *new_array(size_t count, size_t size)
{
    void *array = calloc(count, size);
    if (array == NULL)
        fail("no memory");
    return array;
}

static void ask(struct link *link, const char *bytes, size_t count)
{
    while (count > 0) {
        ssize_t wrote = write(link->fd, bytes, count);
        if (wrote <= 0)
            fail("a request cannot be written");
        bytes += wrote;
        count -= (size_t)wrote;
    }
}

/* Reads what has arrived, at least one byte. */
static void read_more(struct link *link)
{
    memmove(link->replies, link->replies + link->from, link->count - link->from);
    link->count -= link->from;
    link->from = 0;
    ssize_t got = read(link->fd, link->replies + link->count, link->room - link->count);
    if (got <= 0)
        fail("a reply ends too early");
    link->count += (size_t)got;
}

/* Takes a reply that is whole, and returns its end, or NULL if there is none. */
static const char *next_reply(struct link *link)
{
    size_t count = way->whole(link->replies + link->from, link->count - link->from);
    if (count == 0)
        return NULL;
    link->from += count;
    return link->replies + link->from;
}

static const char *await_reply(struct link *link)
{
    const char *end;
    while ((end = next_reply(link)) == NULL)
        read_more(link);
    return end;
}

/* The frames of sysvmsg: see docs/wire.md. */
static int32_t requests_queue, answers_queue;

static char *number(char *at, uint64_t value, int bytes)
{
    for (int i = bytes - 1; i >= 0; i--)
        *at++ = (char)(value >> (8 * i));
    return at;
}

static char *begin(char *frame, int operation, uint32_t fields)
{
    return number(number(number(frame, fields + 2, 4), 1, 1), (uint64_t)operation, 1);
}

static uint32_t number_at(const char *bytes)
{
    const unsigned char *at = (const unsigned char *)bytes;
    return (uint32_t)at[0] << 24 | (uint32_t)at[1] << 16 | (uint32_t)at[2] << 8 | at[3];
}

static size_t sysvmsg_hello(char *at)
{
    char *end = begin(at, 0, 12);
    end = number(number(number(end, 1000, 4), 1000, 4), (uint64_t)getpid(), 4);
    return (size_t)(end - at);
}

static int32_t sysvmsg_queue(struct link *link, int key)
{
    char frame[REQUEST];
    char *end = number(number(begin(frame, 1, 8), (uint64_t)key, 4), 01000 + 0600, 4);
    ask(link, frame, (size_t)(end - frame));
    return (int32_t)number_at(await_reply(link) - 4);
}

static void sysvmsg_prepare(struct link *link)
{
    requests_queue = sysvmsg_queue(link, 1);
    answers_queue = sysvmsg_queue(link, 2);
}

static int32_t queue_of(int place) { return place == TO_ANSWERER ? requests_queue : answers_queue; }

/* The type is 1 on the queue of requests, and that of the first client is 2. */
static uint64_t type_of(int place) { return place == TO_ANSWERER ? 1 : (uint64_t)place + 2; }

static size_t sysvmsg_send(char *at, int place, const struct message *message)
{
    char *end = number(begin(at, 2, 16 + BODY), (uint64_t)queue_of(place), 4);
    end = mempcpy(number(number(end, type_of(place), 8), 0, 4), message, BODY);
    return (size_t)(end - at);
}

static size_t sysvmsg_take(char *at, int place)
{
    char *end = number(number(begin(at, 3, 20), (uint64_t)queue_of(place), 4), BODY, 4);
    end = number(number(end, type_of(place), 8), 0, 4);
    return (size_t)(end - at);
}

static size_t sysvmsg_whole(const char *bytes, size_t count)
{
    if (count < 7)
        return 0;
    if (bytes[6] != 0)
        fail("the server's reply is an error");
    size_t whole = 4 + (size_t)number_at(bytes);
    return count < whole ? 0 : whole;
}

/* The commands of Redis. The list of a client is named by six digits. */
static const char *list_of(int place)
{
    static char name[16];
    snprintf(name, sizeof name, "%06d", place == TO_ANSWERER ? 999999 : place);
    return name;
}

static size_t redis_hello(char *at) { return (size_t)sprintf(at, "*1\r\n$4\r\nPING\r\n"); }

static void redis_prepare(struct link *link) { (void)link; }

static size_t redis_send(char *at, int place, const struct message *message)
{
    int head = sprintf(at, "*3\r\n$5\r\nLPUSH\r\n$6\r\n%s\r\n$%d\r\n", list_of(place), BODY);
    char *end = mempcpy(mempcpy(at + head, message, BODY), "\r\n", 2);
    return (size_t)(end - at);
}

static size_t redis_take(char *at, int place)
{
    return (size_t)sprintf(at, "*3\r\n$5\r\nBRPOP\r\n$6\r\n%s\r\n$1\r\n0\r\n", list_of(place));
}

/* A reply to a take is "*2 $6 LIST $64 MESSAGE". The others that are expected are one line. */
static size_t redis_whole(const char *bytes, size_t count)
{
    static const char taken[] = "*2\r\n$6\r\n999999\r\n$64\r\n";
    const char *end = memchr(bytes, '\n', count);
    if (end == NULL)
        return 0;
    if (bytes[0] == '*') {
        size_t whole = sizeof taken - 1 + BODY + 2;
        return count < whole ? 0 : whole;
    }
    if (bytes[0] != ':' && bytes[0] != '+')
        fail("the server's reply is an error");
    return (size_t)(end - bytes) + 1;
}

static const struct way WAYS[] = {
    {"sysvmsg", sysvmsg_hello, sysvmsg_prepare, sysvmsg_send, sysvmsg_take, sysvmsg_whole, 0},
    {"redis", redis_hello, redis_prepare, redis_send, redis_take, redis_whole, 2},
};

static void send_hello(struct link *link)
{
    char request[REQUEST];
    ask(link, request, way->hello(request));
}

static void send_message(struct link *link, int place, const struct message *message)
{
    char request[REQUEST];
    ask(link, request, way->send(request, place, message));
}

static void send_take(struct link *link, int place)
{
    char request[REQUEST];
    ask(link, request, way->take(request, place));
}

static struct message message_of(uint32_t client, uint32_t number)
{
    struct message message = {.client = client, .number = number};
    memset(message.fill, 'x', sizeof message.fill);
    return message;
}

/* The message at the end of a reply to a take. */
static struct message taken(const char *end)
{
    struct message message;
    memcpy(&message, end - way->tail - BODY, BODY);
    return message;
}

static void expect(const char *end, const struct message *wanted)
{
    struct message got = taken(end);
    if (memcmp(&got, wanted, BODY) != 0)
        fail("a message is lost, or came to the wrong client");
}

/* Connects, within five seconds. While the server's backlog is full it waits. */
static struct link connected(size_t room)
{
    struct sockaddr_un name = {.sun_family = AF_UNIX};
    struct link link = {.replies = new_array(room, 1), .room = room};
    strncpy(name.sun_path, path, sizeof name.sun_path - 1);
    link.fd = socket(AF_UNIX, SOCK_STREAM, 0);
    if (link.fd < 0)
        fail("there is no descriptor for a client");
    for (int tries = 0; connect(link.fd, (struct sockaddr *)&name, sizeof name) != 0; tries++) {
        if (tries == 500)
            fail("a client cannot connect");
        pause_for(10);
    }
    return link;
}

/* The first client, which makes the queues. */
static struct link first_link(void)
{
    struct link link = connected(REPLY);
    send_hello(&link);
    await_reply(&link);
    way->prepare(&link);
    return link;
}

static void greet_all(struct link *links, int count)
{
    for (int from = 0; from < count; from += AT_ONCE) {
        int to = from + AT_ONCE < count ? from + AT_ONCE : count;
        for (int i = from; i < to; i++) {
            links[i] = connected(REPLY);
            send_hello(links + i);
        }
        for (int i = from; i < to; i++)
            await_reply(links + i);
    }
}

/* The number behind a word in a file of /proc. */
static long field_of(const char *file, const char *word)
{
    char line[256];
    long found = -1;
    FILE *lines = fopen(file, "r");
    while (lines != NULL && found < 0 && fgets(line, sizeof line, lines) != NULL)
        if (strncmp(line, word, strlen(word)) == 0)
            found = strtol(line + strlen(word), NULL, 10);
    if (lines != NULL)
        fclose(lines);
    return found;
}

static long resident(void)
{
    char file[64];
    snprintf(file, sizeof file, "/proc/%d/status", server_pid);
    return field_of(file, "VmRSS:");
}

/* Calls a function for each entry of a folder of the server in /proc, and returns the sum. */
static long sum_of(const char *folder, long (*value)(const char *entry))
{
    char name[64], entry[512];
    long sum = 0;
    struct dirent *found;
    snprintf(name, sizeof name, "/proc/%d/%s", server_pid, folder);
    DIR *entries = opendir(name);
    if (entries == NULL)
        fail("the server has ended");
    while ((found = readdir(entries)) != NULL) {
        snprintf(entry, sizeof entry, "%s/%s/status", name, found->d_name);
        if (found->d_name[0] != '.')
            sum += value(entry);
    }
    closedir(entries);
    return sum;
}

static long one(const char *entry)
{
    (void)entry;
    return 1;
}

static long switches_in(const char *entry) { return field_of(entry, "voluntary_ctxt_switches:"); }

static long descriptors(void) { return sum_of("fd", one); }

static long switches(void) { return sum_of("task", switches_in); }

/* Waits until the server has nothing to do, or four seconds. */
static void settle(void)
{
    for (int tries = 0; tries < 20; tries++) {
        int64_t before = nanoseconds(server);
        pause_for(200);
        if (nanoseconds(server) - before < 1000000)
            return;
    }
}

static int by_size(const void *left, const void *right)
{
    int64_t a = *(const int64_t *)left, b = *(const int64_t *)right;
    return (a > b) - (a < b);
}

/* The greatest of the least so many thousandths, in microseconds, of sorted times. */
static double percentile(const int64_t *times, size_t count, size_t thousandths)
{
    return count == 0 ? 0 : (double)times[(count - 1) * thousandths / 1000] / 1e3;
}

static double each(int64_t time, size_t count)
{
    return count == 0 ? 0 : (double)time / 1e3 / (double)count;
}

static void greet(int clients)
{
    struct link *links = new_array((size_t)clients, sizeof *links);
    first_link();
    settle();
    long memory = resident(), open = descriptors();
    int64_t start = now();
    greet_all(links, clients);
    int64_t time = now() - start;
    settle();
    long filled = resident(), opened = descriptors();
    if (memory < 0 || filled < 0 || opened < open + clients)
        fail("the server has fewer descriptors than clients");
    printf("%.0f %ld %ld %ld %ld\n", clients * 1e9 / (double)time, memory, filled, open, opened);
}

static void wait_for_messages(int clients, int rest, int messages)
{
    struct link *links = new_array((size_t)clients, sizeof *links);
    int64_t *times = new_array((size_t)messages + 1, sizeof *times);
    struct link sender = first_link();
    greet_all(links, clients);
    for (int i = 0; i < clients; i++)
        send_take(links + i, i);
    settle();
    long woken = switches();
    int64_t used = nanoseconds(server);
    pause_for(rest);
    used = nanoseconds(server) - used;
    woken = switches() - woken;

    int64_t before = nanoseconds(server);
    srand(1);
    for (int i = 0; i < messages; i++) {
        int client = rand() % clients;
        struct message message = message_of((uint32_t)client, (uint32_t)i);
        int64_t start = now();
        send_message(&sender, client, &message);
        const char *end = await_reply(links + client);
        times[i] = now() - start;
        expect(end, &message);
        await_reply(&sender);
        send_take(links + client, client);
        pause_for(1);
    }
    int64_t spent = nanoseconds(server) - before;
    size_t count = (size_t)messages;
    qsort(times, count, sizeof *times, by_size);
    printf("%.0f %ld %.1f %.1f %.2f\n", (double)used / 1e3, woken, percentile(times, count, 500),
        percentile(times, count, 990), each(spent, count));
}

/* Requests have numbers from 0: each even one is a send, and the next one is its receive. */
static void pipeline(int depth, int milliseconds)
{
    char *requests = new_array((size_t)depth, REQUEST);
    struct link link = connected((size_t)depth * REPLY);
    send_hello(&link);
    await_reply(&link);
    way->prepare(&link);
    uint32_t done = 0;
    int64_t start = now(), end = start + milliseconds * INT64_C(1000000), at;
    while ((at = now()) < end) {
        size_t count = 0;
        for (uint32_t i = done; i < done + (uint32_t)depth; i++) {
            struct message message = message_of(0, i / 2);
            count += i % 2 == 0 ? way->send(requests + count, 0, &message)
                                : way->take(requests + count, 0);
        }
        ask(&link, requests, count);
        for (uint32_t last = done + (uint32_t)depth; done < last; done++) {
            struct message message = message_of(0, done / 2);
            const char *reply = await_reply(&link);
            if (done % 2 == 1)
                expect(reply, &message);
        }
    }
    printf("%.0f\n", done * 1e9 / (double)(at - start));
}

/* A client that takes requests and answers each with the same message. */
static void answer_all(int clients)
{
    (void)clients;
    struct link link = connected(REPLY);
    send_hello(&link);
    await_reply(&link);
    for (;;) {
        send_take(&link, TO_ANSWERER);
        struct message message = taken(await_reply(&link));
        send_message(&link, (int)message.client, &message);
        await_reply(&link);
    }
}

static void when_child_ended(int signal)
{
    (void)signal;
    _exit(1);
}

/* Starts a process of its own for other clients, which does not end by itself. */
static pid_t start_others(void (*run)(int clients), int clients)
{
    signal(SIGCHLD, when_child_ended);
    pid_t child = fork();
    if (child < 0)
        fail("the other clients cannot be started");
    if (child == 0) {
        prctl(PR_SET_PDEATHSIG, SIGKILL);
        run(clients);
    }
    return child;
}

static void end_others(pid_t child)
{
    signal(SIGCHLD, SIG_IGN);
    kill(child, SIGKILL);
}

/* A client that sends requests and waits for their answers. */
struct asker {
    struct link link;
    struct message request;
    int64_t sent;
    int is_sent;
};

struct trips {
    int64_t *times, start, last, end;
    size_t count, most;
    int asking;
};

static void send_request(struct asker *asker, uint32_t client, uint32_t number)
{
    asker->request = message_of(client, number);
    asker->is_sent = 0;
    asker->sent = now();
    send_message(&asker->link, TO_ANSWERER, &asker->request);
}

/* Reads what has arrived for a client, and does what comes next. */
static void proceed(struct asker *asker, struct trips *trips)
{
    const struct message *request = &asker->request;
    read_more(&asker->link);
    const char *end = next_reply(&asker->link);
    if (end == NULL)
        return;
    if (!asker->is_sent) {
        asker->is_sent = 1;
        send_take(&asker->link, (int)request->client);
        return;
    }
    expect(end, request);
    trips->last = now();
    if (trips->count == trips->most)
        fail("there are more answers than can be noted");
    trips->times[trips->count++] = trips->last - asker->sent;
    if (trips->last < trips->end)
        send_request(asker, request->client, request->number + 1);
    else
        trips->asking--;
}

static struct asker *new_askers(int clients, int watch)
{
    struct asker *askers = new_array((size_t)clients, sizeof *askers);
    for (int i = 0; i < clients; i++) {
        struct epoll_event event = {.events = EPOLLIN, .data.ptr = askers + i};
        greet_all(&askers[i].link, 1);
        if (epoll_ctl(watch, EPOLL_CTL_ADD, askers[i].link.fd, &event) != 0)
            fail("a client cannot be watched");
    }
    return askers;
}

static void ask_all(int clients, int milliseconds)
{
    struct epoll_event events[AT_ONCE];
    struct trips trips = {.most = (size_t)milliseconds * 1000 + (size_t)clients, .asking = clients};
    trips.times = new_array(trips.most, sizeof *trips.times);
    first_link();
    pid_t answerer = start_others(answer_all, clients);
    int watch = epoll_create1(0);
    struct asker *askers = new_askers(clients, watch);
    settle();
    int64_t before = nanoseconds(server);
    trips.start = now();
    trips.end = trips.start + milliseconds * INT64_C(1000000);
    for (int i = 0; i < clients; i++)
        send_request(askers + i, (uint32_t)i, 0);
    while (trips.asking > 0) {
        int ready = epoll_wait(watch, events, AT_ONCE, -1);
        if (ready < 0 && errno != EINTR)
            fail("the clients cannot be watched");
        for (int i = 0; i < ready; i++)
            proceed(events[i].data.ptr, &trips);
    }
    int64_t spent = nanoseconds(server) - before;
    end_others(answerer);
    qsort(trips.times, trips.count, sizeof *trips.times, by_size);
    printf("%.0f %.1f %.2f\n", (double)trips.count * 1e9 / (double)(trips.last - trips.start),
        percentile(trips.times, trips.count, 990), each(spent, trips.count));
}

/* A client that sends itself messages. */
struct talker {
    struct link link;
    int place, is_sent;
};

/* Reads what has arrived for a client, and does what comes next. */
static void talk_on(struct talker *talker)
{
    struct message message = message_of((uint32_t)talker->place, 0);
    read_more(&talker->link);
    const char *end = next_reply(&talker->link);
    if (end == NULL)
        return;
    if (!talker->is_sent) {
        talker->is_sent = 1;
        send_take(&talker->link, talker->place);
        return;
    }
    expect(end, &message);
    talker->is_sent = 0;
    send_message(&talker->link, talker->place, &message);
}

/* Clients that send themselves messages without end. */
static void talk_all(int clients)
{
    struct epoll_event events[AT_ONCE];
    struct talker *talkers = new_array((size_t)clients, sizeof *talkers);
    int watch = epoll_create1(0);
    for (int i = 0; i < clients; i++) {
        struct epoll_event event = {.events = EPOLLIN, .data.ptr = talkers + i};
        struct message message = message_of((uint32_t)i, 0);
        greet_all(&talkers[i].link, 1);
        talkers[i].place = i;
        if (epoll_ctl(watch, EPOLL_CTL_ADD, talkers[i].link.fd, &event) != 0)
            fail("a client cannot be watched");
        send_message(&talkers[i].link, i, &message);
    }
    for (;;) {
        int ready = epoll_wait(watch, events, AT_ONCE, -1);
        if (ready < 0 && errno != EINTR)
            fail("the clients cannot be watched");
        for (int i = 0; i < ready; i++)
            talk_on(events[i].data.ptr);
    }
}

static void talk_beside(int clients, int milliseconds)
{
    size_t count = 0, most = (size_t)milliseconds * 1000;
    int64_t *times = new_array(most, sizeof *times);
    struct link link = first_link();
    pid_t others = start_others(talk_all, clients);
    pause_for(200);
    int64_t end = now() + milliseconds * INT64_C(1000000), start;
    while ((start = now()) < end && count < most) {
        struct message message = message_of((uint32_t)clients, (uint32_t)count);
        send_message(&link, clients, &message);
        await_reply(&link);
        send_take(&link, clients);
        expect(await_reply(&link), &message);
        times[count++] = now() - start;
    }
    end_others(others);
    qsort(times, count, sizeof *times, by_size);
    printf("%.1f %.1f %.1f\n", percentile(times, count, 500), percentile(times, count, 990),
        percentile(times, count, 999));
}

static void when_too_long(int signal)
{
    (void)signal;
    if (write(2, too_long, strlen(too_long)) < 0)
        _exit(2);
    _exit(1);
}

static void limit_time(int milliseconds)
{
    int limit = milliseconds / 1000 + 1 + GRACE;
    snprintf(too_long, sizeof too_long,
        "many: %s: not over after %d seconds: a message is lost, or the server is stuck\n", doing,
        limit);
    signal(SIGALRM, when_too_long);
    alarm((unsigned)limit);
}

/* The number of an argument, or -1 if there is none from `least` to `most`. */
static int argument(char **argv, int at, int least, int most)
{
    char *end;
    long number = strtol(argv[at], &end, 10);
    return *end != '\0' || number < least || number > most ? -1 : (int)number;
}

/* Makes the measurement that the arguments name, and returns whether they name one. */
static int measure(int argc, char **argv)
{
    const char *word = argv[1];
    int clients = argument(argv, 5, 1, MOST_CLIENTS), depth = argument(argv, 5, 1, MOST_DEPTH);
    int time = argc > 6 ? argument(argv, 6, 0, MOST_TIME) : 0;
    int messages = argc > 7 ? argument(argv, 7, 0, MOST_TIME) : 0;
    if (time < 0 || messages < 0)
        return 0;
    limit_time(time + messages);
    if (strcmp(word, "greet") == 0 && argc == 6 && clients > 0)
        greet(clients);
    else if (strcmp(word, "wait") == 0 && argc == 8 && clients > 0)
        wait_for_messages(clients, time, messages);
    else if (strcmp(word, "pipe") == 0 && argc == 7 && depth > 0 && time > 0)
        pipeline(depth, time);
    else if (strcmp(word, "trips") == 0 && argc == 7 && clients > 0 && time > 0)
        ask_all(clients, time);
    else if (strcmp(word, "beside") == 0 && argc == 7 && clients > 0 && time > 0)
        talk_beside(clients, time);
    else
        return 0;
    return 1;
}

int main(int argc, char **argv)
{
    const struct way *end = WAYS + sizeof WAYS / sizeof *WAYS;
    signal(SIGPIPE, SIG_IGN);
    way = WAYS;
    while (argc >= 6 && way < end && strcmp(way->name, argv[2]) != 0)
        way++;
    if (argc >= 6 && way < end) {
        path = argv[3];
        server_pid = atoi(argv[4]);
        snprintf(doing, sizeof doing, "%s, %s %s", way->name, argv[1], argv[5]);
        if (clock_getcpuclockid(server_pid, &server) != 0)
            fail("the server has no processor time");
        if (measure(argc, argv))
            return 0;
    }
    fputs("many_client greet|wait|pipe|trips|beside sysvmsg|redis PATH PID NUMBER ..\n", stderr);
    return 2;
}
