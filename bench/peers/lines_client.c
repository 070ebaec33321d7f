/* Takes messages from a queue of a server and drops them: a consumer that is no part of sysvmsg.
 *   lines_client PATH KEY COUNT
 * It keeps up to 256 receives on their way, never more than messages are left to take, and creates the queue if there is
 * none. It ends once it has taken COUNT messages. The status is 1 if that failed.
 */
#include <stdint.h>
#include <stdio.h>
#include <stdlib.h>
#include <string.h>
#include <sys/socket.h>
#include <sys/un.h>
#include <unistd.h>

#define AHEAD 256

static int fd;
static char replies[65536];
static size_t count, start;

static void fail(const char *what) {
    fprintf(stderr, "lines_client: %s\n", what);
    exit(1);
}

/* The frames of sysvmsg: see docs/wire.md. */
static char *number(char *at, uint64_t value, int bytes) {
    for (int i = bytes - 1; i >= 0; i--) *at++ = (char)(value >> (8 * i));
    return at;
}

static char *begin(char *frame, int operation, uint32_t fields) {
    return number(number(number(frame, fields + 2, 4), 2, 1), (uint64_t)operation, 1);
}

static void put(const char *bytes, size_t left) {
    while (left > 0) {
        ssize_t wrote = write(fd, bytes, left);
        if (wrote <= 0) fail("a request cannot be written");
        bytes += wrote;
        left -= (size_t)wrote;
    }
}

/* Reads until there are so many bytes of a reply. */
static void read_to(size_t wanted) {
    while (count - start < wanted) {
        memmove(replies, replies + start, count - start);
        count -= start;
        start = 0;
        ssize_t got = read(fd, replies + count, sizeof replies - count);
        if (got <= 0) fail("a reply ends too early");
        count += (size_t)got;
    }
}

/* Reads a reply, and returns the place of its fields. It stays there until the next one is read. */
static const char *next_reply(void) {
    read_to(7);
    const unsigned char *head = (const unsigned char *)replies + start;
    size_t length = (size_t)head[0] << 24 | (size_t)head[1] << 16 | (size_t)head[2] << 8 | head[3];
    if (head[6] != 0) fail("the server's reply is an error");
    read_to(4 + length);
    const char *fields = replies + start + 7;
    start += 4 + length;
    return fields;
}

int main(int words, char **word) {
    if (words != 4) fail("lines_client PATH KEY COUNT");
    struct sockaddr_un to = {.sun_family = AF_UNIX};
    strncpy(to.sun_path, word[1], sizeof to.sun_path - 1);
    fd = socket(AF_UNIX, SOCK_STREAM, 0);
    if (fd < 0 || connect(fd, (const struct sockaddr *)&to, sizeof to) != 0) fail("there is no server");

    char frame[32], frames[AHEAD * sizeof frame];
    put(frame, (size_t)(number(number(number(begin(frame, 0, 12), 1000, 4), 1000, 4), 1, 4) - frame));
    next_reply();
    put(frame, (size_t)(number(number(begin(frame, 1, 8), strtoul(word[2], NULL, 0), 4), 01000 + 0600, 4) - frame));
    char *at = begin(frame, 3, 20);
    memcpy(at, next_reply(), 4);
    size_t size = (size_t)(number(number(number(at + 4, 8192, 4), 0, 8), 0, 4) - frame);

    unsigned long left = strtoul(word[3], NULL, 0);
    for (unsigned long waiting = 0; left > 0; waiting--, left--) {
        unsigned long most = left < AHEAD ? left : AHEAD;
        if (waiting <= AHEAD / 2 && waiting < most) {
            for (unsigned long i = 0; i < most - waiting; i++) memcpy(frames + i * size, frame, size);
            put(frames, (most - waiting) * size);
            waiting = most;
        }
        next_reply();
    }
    return 0;
}
