/* Makes calls of libsysvmsg_preload.so, which is linked with it, to a server that it plays itself
 * and that replies with anything: right replies with extreme numbers, and replies that are one
 * mistake away from a right one. What a call must return is computed from the bytes of the replies,
 * by the tables of docs/wire.md and the limits of docs/preload.md.
 *   hostile SESSIONS SECONDS SEED    ends after so many sessions, or else after so many seconds
 * SYSVMSG_PATH is the socket. It prints how many sessions there were, and ends with status 0 if all
 * was as it should be, and else prints what was not, with status 1. */
#define _GNU_SOURCE
#include <dirent.h>
#include <errno.h>
#include <limits.h>
#include <signal.h>
#include <stdbool.h>
#include <stdint.h>
#include <stdio.h>
#include <stdlib.h>
#include <string.h>
#include <sys/mman.h>
#include <sys/msg.h>
#include <sys/prctl.h>
#include <sys/socket.h>
#include <sys/un.h>
#include <time.h>
#include <unistd.h>

#ifndef MSG_STAT_ANY
#define MSG_STAT_ANY 13
#endif

enum operation { HELLO, GET, SND, RCV, STAT, SET, RM, ROW, OPERATIONS };

enum {
    TEXT = 8192,
    HEAD = 7,      /* of a reply: length, version, operation, error */
    TYPE = 8,      /* of a received message */
    SMALL = 74,    /* the most that the library reads of a reply that isn't a message */
    LARGE = 9000,  /* the most bytes of a reply of this server */
    QUEUE = 3,     /* the identifier in every call */
    SLOTS = 65536, /* the most that a server may have */
    FEW_SLOTS = 8, /* so few that each is asked for */
    MARK = 12345,  /* errno before a call */
};

struct reply {
    size_t count, first; /* bytes, and those of the first write */
    bool ends;           /* it is not one frame, and no more is sent after it */
    unsigned char bytes[LARGE];
};

/* What the server is to send, and the last request that it read. */
static struct shared {
    struct reply replies[OPERATIONS];
    bool hangs_up; /* after the hello */
    uint32_t asked;
    unsigned char request[LARGE];
} * shared;

static uint64_t state;
static unsigned long sessions, calls;
static bool is_connected, is_spoiled; /* there are bytes after a whole reply */
static int slots;                     /* of the hello of this session */
static char sent[TEXT];

static void expect(bool holds, const char *what)
{
    if (holds)
        return;
    printf("session %lu, call %lu: %s (errno %d)\n", sessions, calls, what, errno);
    exit(1);
}

static uint64_t any(uint64_t below)
{
    state ^= state << 13;
    state ^= state >> 7;
    state ^= state << 17;
    return (state * 2685821657736338717u >> 32) % below;
}

static bool once_in(uint64_t times) { return any(times) == 0; }

static uint64_t number(const unsigned char *bytes, int count)
{
    uint64_t value = 0;
    for (int i = 0; i < count; i++)
        value = value << 8 | bytes[i];
    return value;
}

static void put(struct reply *reply, uint64_t value, int count)
{
    for (int i = count - 1; i >= 0; i--)
        reply->bytes[reply->count++] = (unsigned char)(value >> (8 * i));
}

/* A number of four bytes: most are small, and some are at a limit. */
static uint32_t extreme(void)
{
    static const uint32_t LIMITS[] = {
        0, 1, 255, 256, INT_MAX - 1, INT_MAX, 1 + (uint32_t)INT_MAX, UINT32_MAX - 1, UINT32_MAX};
    return once_in(3) ? LIMITS[any(sizeof LIMITS / sizeof *LIMITS)] : (uint32_t)any(1000);
}

static uint64_t extreme_type(void)
{
    return once_in(6) ? (uint64_t)extreme() << 32 | extreme() : 1 + any(9);
}

static uint32_t extreme_mode(void) { return (uint32_t)(once_in(8) ? any(65536) : any(512)); }

static uint32_t extreme_slots(void)
{
    static const uint32_t LIMITS[] = {SLOTS, SLOTS + 1, INT_MAX, 1 + (uint32_t)INT_MAX, UINT32_MAX};
    return once_in(8) ? LIMITS[any(sizeof LIMITS / sizeof *LIMITS)] : (uint32_t)any(FEW_SLOTS);
}

static void put_stat(struct reply *reply)
{
    for (int i = 0; i < 5; i++)
        put(reply, extreme(), 4);
    put(reply, extreme_mode(), 2);
    for (int i = 0; i < 5; i++)
        put(reply, extreme(), 4);
    for (int i = 0; i < 3; i++)
        put(reply, extreme_type(), 8);
}

static void put_row(struct reply *reply)
{
    bool present = !once_in(4);
    put(reply, present, 1);
    if (!present)
        return;
    for (int i = 0; i < 3; i++)
        put(reply, extreme(), 4);
    put(reply, extreme_mode(), 2);
    put(reply, extreme(), 4);
    put(reply, extreme(), 4);
}

/* A message for a receive that asks for so many bytes. Some are longer. */
static void put_message(struct reply *reply, size_t size)
{
    put(reply, extreme_type(), TYPE);
    size_t count = once_in(4) ? size : once_in(8) ? size + 1 + any(9) : any(size + 1);
    for (size_t i = 0; i < count; i++)
        put(reply, i * 7 + size, 1);
}

static void put_fields(struct reply *reply, enum operation operation, size_t size)
{
    switch (operation) {
    case HELLO: put(reply, extreme_slots(), 4); break;
    case GET: put(reply, extreme(), 4); break;
    case RCV: put_message(reply, size); break;
    case STAT: put_stat(reply); break;
    case ROW: put_row(reply); break;
    default: break;
    }
}

static void put_length(struct reply *reply, uint32_t length)
{
    for (int i = 0; i < 4; i++)
        reply->bytes[i] = (unsigned char)(length >> (24 - 8 * i));
}

static unsigned char an_error(void)
{
    static const unsigned char ERRORS[] = {1, 2, 7, 11, 13, 17, 22, 28, 42, 43, 75};
    return once_in(4) ? (unsigned char)any(256) : ERRORS[any(sizeof ERRORS)];
}

/* A reply that may have an error, and whose numbers may be beyond their limits. */
static void make(struct reply *reply, enum operation operation, size_t size)
{
    unsigned char error = once_in(operation == HELLO ? 40 : 5) ? an_error() : 0;
    reply->count = 4;
    put(reply, 2, 1);
    put(reply, operation, 1);
    put(reply, error, 1);
    if (error == 0 || once_in(20))
        put_fields(reply, operation, size);
    put_length(reply, (uint32_t)reply->count - 4);
}

static void add_bytes(struct reply *reply, size_t count)
{
    while (count-- > 0 && reply->count < LARGE)
        reply->bytes[reply->count++] = (unsigned char)any(256);
}

/* Makes a mistake in a reply. */
static void spoil(struct reply *reply)
{
    size_t place = any(reply->count);
    switch (any(7)) {
    case 0: reply->bytes[place] ^= (unsigned char)(1 << any(8)); break;
    case 1: reply->bytes[any(HEAD)] = (unsigned char)any(256); break;
    case 2: put_length(reply, once_in(2) ? extreme() : (uint32_t)any(100)); break;
    case 3: reply->count = place; break;
    case 4: add_bytes(reply, 1 + any(once_in(4) ? 600 : 4)); break;
    case 5:
        add_bytes(reply, 1 + any(4));
        put_length(reply, (uint32_t)reply->count - 4);
        break;
    default: reply->count = 0; add_bytes(reply, any(100));
    }
}

/* How many bytes of a reply the library reads at most. */
static size_t seen(const struct reply *reply, enum operation operation, size_t size)
{
    size_t room = operation == RCV ? HEAD + TYPE + size : SMALL;
    return reply->count < room ? reply->count : room;
}

/* Whether the fields of a reply without an error are as they may be. */
static bool is_right(const unsigned char *fields, size_t count, enum operation operation)
{
    switch (operation) {
    case HELLO: return count == 4 && number(fields, 4) <= SLOTS;
    case GET: return count == 4 && fields[0] < 128;
    case RCV: return count >= TYPE && fields[0] < 128 && number(fields, TYPE) != 0;
    case STAT: return count == 66 && number(fields + 20, 2) <= 0777;
    case ROW:
        return (count == 1 && fields[0] == 0)
               || (count == 23 && fields[0] == 1 && fields[1] < 128
                   && number(fields + 13, 2) <= 0777);
    default: return count == 0;
    }
}

/* The errno of a reply, EIO if it is malformed. The errors of docs/wire.md have Linux's numbers. */
static int judge(const struct reply *reply, enum operation operation, size_t size)
{
    static const unsigned char ERRORS[] = {1, 2, 7, 11, 13, 17, 22, 28, 42, 43, 75};
    size_t count = seen(reply, operation, size);
    const unsigned char *bytes = reply->bytes;
    if (count < HEAD || number(bytes, 4) + 4 != count || bytes[4] != 2 || bytes[5] != operation)
        return EIO;
    if (bytes[6] == 0)
        return is_right(bytes + HEAD, count - HEAD, operation) ? 0 : EIO;
    return count == HEAD && memchr(ERRORS, bytes[6], sizeof ERRORS) ? bytes[6] : EIO;
}

/* Makes the replies of the next call. */
static void prepare(size_t size)
{
    for (enum operation each = HELLO; each < OPERATIONS; each++) {
        struct reply *reply = &shared->replies[each];
        make(reply, each, size);
        if (once_in(each == HELLO ? 10 : 2))
            spoil(reply);
        uint64_t length = number(reply->bytes, 4) + 4;
        reply->ends = reply->count != length;
        reply->first = reply->count;
        if (reply->count > 1 && length >= reply->count && once_in(8))
            reply->first = 1 + any(reply->count - 1);
    }
    shared->hangs_up = once_in(50);
    errno = MARK;
}

/* The errno that a request must meet by the prepared replies. */
static int meets(enum operation operation, size_t size)
{
    bool begins = !is_connected;
    sessions += begins;
    is_connected = true;
    const struct reply *reply = &shared->replies[operation];
    int error = is_spoiled ? EIO : judge(reply, operation, size);
    if (begins && (judge(&shared->replies[HELLO], HELLO, 0) != 0 || shared->hangs_up))
        error = EIO;
    else if (begins)
        slots = (int)number(shared->replies[HELLO].bytes + HEAD, 4);
    is_connected = error != EIO;
    is_spoiled = is_connected && reply->count > seen(reply, operation, size);
    return error;
}

static void is_result(long got, int error, const char *what)
{
    if (error == 0)
        expect(got >= 0 && errno == MARK, what);
    else
        expect(got == -1 && errno == error, what);
}

static void try_get(void)
{
    prepare(0);
    int error = meets(GET, 0), got = msgget(QUEUE, IPC_CREAT | 0600);
    is_result(got, error, "msgget");
    expect(error || (uint32_t)got == number(shared->replies[GET].bytes + HEAD, 4), "identifier");
}

/* The text is at the end of its memory, so that the sanitizer sees what is read after it. */
static void try_send(void)
{
    size_t size = once_in(8) ? any(TEXT + 1) : any(100);
    long type = (long)extreme_type();
    char *message = malloc(sizeof type + size);
    memcpy(message, &type, sizeof type);
    memcpy(message + sizeof type, sent, size);
    prepare(0);
    int error = meets(SND, 0);
    is_result(msgsnd(QUEUE, message, size, 0), error, "msgsnd");
    if (error != EIO)
        expect(shared->asked == 22 + size && (long)number(shared->request + 10, 8) == type
                   && memcmp(shared->request + 22, sent, size) == 0,
            "the request");
    free(message);
}

static void try_receive(void)
{
    size_t size = once_in(8) ? any(TEXT + 1) : any(100);
    char *message = malloc(sizeof(long) + size);
    const unsigned char *fields = shared->replies[RCV].bytes + HEAD;
    memset(message, 0, sizeof(long) + size);
    prepare(size);
    int error = meets(RCV, size);
    ssize_t got = msgrcv(QUEUE, message, size, 0, MSG_NOERROR);
    is_result(got, error, "msgrcv");
    if (error == 0) {
        long type;
        memcpy(&type, message, sizeof type);
        expect((size_t)got == number(fields - HEAD, 4) - 3 - TYPE, "the length of a message");
        expect((uint64_t)type == number(fields, TYPE), "the type of a message");
        expect(memcmp(message + TYPE, fields + TYPE, (size_t)got) == 0, "the text of a message");
    }
    free(message);
}

static void is_stat(const struct msqid_ds *told)
{
    const unsigned char *fields = shared->replies[STAT].bytes + HEAD;
    expect(told->msg_perm.mode == number(fields + 20, 2) && told->msg_qnum == number(fields + 26, 4)
               && (uint64_t)told->msg_ctime == number(fields + 58, 8),
        "the fields of IPC_STAT");
}

static void try_stat(void)
{
    struct msqid_ds told;
    prepare(0);
    int error = meets(STAT, 0);
    is_result(msgctl(QUEUE, IPC_STAT, &told), error, "IPC_STAT");
    if (error == 0)
        is_stat(&told);
}

static void try_set(void)
{
    struct msqid_ds wanted = {.msg_qbytes = extreme()};
    prepare(0);
    int error = meets(SET, 0);
    is_result(msgctl(QUEUE, IPC_SET, &wanted), error, "IPC_SET");
}

static void try_remove(void)
{
    prepare(0);
    int error = meets(RM, 0);
    is_result(msgctl(QUEUE, IPC_RMID, NULL), error, "IPC_RMID");
}

/* The queue of a slot: the reply to a row, and then that to a stat. */
static void try_slot(int command)
{
    struct msqid_ds told;
    prepare(0);
    const unsigned char *row = shared->replies[ROW].bytes + HEAD;
    int error = meets(ROW, 0), stat_error = 0;
    if (error == 0 && row[0] == 0)
        error = EINVAL;
    else if (error == 0)
        error = stat_error = meets(STAT, 0);
    if (error == EACCES && stat_error && command == MSG_STAT_ANY)
        error = 0;
    int got = msgctl(0, command, &told);
    is_result(got, error, "MSG_STAT");
    if (error == 0) {
        expect((uint32_t)got == number(row + 1, 4), "the identifier of a slot");
        if (stat_error == 0)
            is_stat(&told);
        else
            expect(told.msg_qnum == number(row + 19, 4), "the messages of a slot");
    }
}

static int clipped(uint64_t sum) { return sum < INT_MAX ? (int)sum : INT_MAX; }

/* The sums of all slots, each of which has the same row. */
static void try_sums(void)
{
    struct msginfo info;
    prepare(0);
    const unsigned char *row = shared->replies[ROW].bytes + HEAD;
    int error = meets(ROW, 0);
    int got = msgctl(0, MSG_INFO, (struct msqid_ds *)&info);
    is_result(got, error, "MSG_INFO");
    if (error != 0)
        return;
    uint64_t queues = row[0] * (slots > 1 ? (uint64_t)slots : 1);
    expect((uint64_t)info.msgpool == queues && info.msgmap == clipped(queues * number(row + 19, 4))
               && info.msgtql == clipped(queues * number(row + 15, 4)),
        "the sums of MSG_INFO");
}

static void try_any(void)
{
    calls++;
    switch (any(12)) {
    case 0:
    case 1: try_get(); break;
    case 2:
    case 3: try_send(); break;
    case 4: try_stat(); break;
    case 5: try_set(); break;
    case 6: try_remove(); break;
    case 7: try_slot(once_in(2) ? MSG_STAT : MSG_STAT_ANY); break;
    case 8:
        if (is_connected && slots <= FEW_SLOTS)
            try_sums();
        break;
    default: try_receive();
    }
}

static bool read_all(int peer, unsigned char *bytes, size_t count)
{
    while (count > 0) {
        ssize_t got = read(peer, bytes, count);
        if (got <= 0)
            return false;
        bytes += got;
        count -= (size_t)got;
    }
    return true;
}

static bool read_request(int peer)
{
    if (!read_all(peer, shared->request, 4))
        return false;
    shared->asked = (uint32_t)number(shared->request, 4) + 4;
    return shared->asked <= LARGE && read_all(peer, shared->request + 4, shared->asked - 4);
}

/* Sends a reply. The library may have closed its end before, and once it has the reply, the next
 * ones are made in the same place. */
static void answer(int peer, const struct reply *reply)
{
    size_t first = reply->first, count = reply->count;
    bool ends = reply->ends;
    ssize_t wrote = write(peer, reply->bytes, first);
    if (wrote >= 0 && first < count) {
        usleep(50);
        wrote = write(peer, reply->bytes + first, count - first);
    }
    if (wrote < 0 || ends)
        shutdown(peer, SHUT_WR);
}

static void serve_one(int peer)
{
    while (read_request(peer)) {
        unsigned operation = shared->request[5] % OPERATIONS;
        bool hangs_up = operation == HELLO && shared->hangs_up;
        answer(peer, &shared->replies[operation]);
        if (hangs_up)
            break;
    }
    close(peer);
}

static void play(int listener)
{
    for (;;)
        serve_one(accept(listener, NULL, NULL));
}

static int listen_at(const char *path)
{
    struct sockaddr_un name = {.sun_family = AF_UNIX};
    int listener = socket(AF_UNIX, SOCK_STREAM, 0);
    strncpy(name.sun_path, path, sizeof name.sun_path - 1);
    expect(bind(listener, (struct sockaddr *)&name, sizeof name) == 0 && listen(listener, 9) == 0,
        "bind");
    return listener;
}

/* Starts the server, which ends with this process. */
static void start_server(void)
{
    int listener = listen_at(getenv("SYSVMSG_PATH"));
    shared = mmap(NULL, sizeof *shared, PROT_READ | PROT_WRITE, MAP_SHARED | MAP_ANONYMOUS, -1, 0);
    expect(shared != MAP_FAILED, "mmap");
    if (fork() == 0) {
        prctl(PR_SET_PDEATHSIG, SIGKILL);
        signal(SIGPIPE, SIG_IGN);
        play(listener);
    }
    close(listener);
}

static int count_descriptors(void)
{
    int count = 0;
    DIR *list = opendir("/proc/self/fd");
    while (readdir(list))
        count++;
    closedir(list);
    return count;
}

int main(int count, char **words)
{
    expect(count == 4 && getenv("SYSVMSG_PATH"), "usage: hostile SESSIONS SECONDS SEED");
    unsigned long most = strtoul(words[1], NULL, 10);
    time_t end = time(NULL) + atoi(words[2]);
    state = strtoul(words[3], NULL, 10) * 2654435769u + 1;
    for (size_t i = 0; i < sizeof sent; i++)
        sent[i] = (char)(i * 11);
    start_server();
    int before = count_descriptors();
    while (sessions < most && time(NULL) < end)
        try_any();
    expect(count_descriptors() <= before + 1, "connections are left");
    printf("%lu sessions, %lu calls\n", sessions, calls);
    return 0;
}
