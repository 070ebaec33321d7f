/* A client of `sysvmsg serve` for measuring: sends a message of 64 bytes and receives it, over and over, on one connection,
 * and prints the round trips and the seconds that they took. A round trip is one request and its reply.
 *   serve_client PATH KEY ROUNDS
 */
#include <stdint.h>
#include <stdio.h>
#include <stdlib.h>
#include <string.h>
#include <sys/socket.h>
#include <sys/un.h>
#include <time.h>
#include <unistd.h>

#define TEXT 64

static void fail(const char *what) {
    perror(what);
    exit(1);
}

static unsigned char *number(unsigned char *at, uint64_t value, int bytes) {
    for (int i = bytes - 1; i >= 0; i--) *at++ = (unsigned char)(value >> (8 * i));
    return at;
}

/* Begins a frame of an operation whose fields take so many bytes. */
static unsigned char *begin(unsigned char *frame, int operation, uint32_t fields) {
    unsigned char *at = number(frame, fields + 2, 4);
    at = number(at, 1, 1);
    return number(at, (uint64_t)operation, 1);
}

static void write_all(int fd, const unsigned char *bytes, size_t count) {
    while (count > 0) {
        ssize_t wrote = write(fd, bytes, count);
        if (wrote <= 0) fail("write");
        bytes += wrote;
        count -= (size_t)wrote;
    }
}

static void read_all(int fd, unsigned char *bytes, size_t count) {
    while (count > 0) {
        ssize_t got = read(fd, bytes, count);
        if (got <= 0) fail("read");
        bytes += got;
        count -= (size_t)got;
    }
}

/* Writes a request, and reads the reply, which must have so many bytes and no error. */
static void ask(int fd, const unsigned char *frame, size_t count, unsigned char *reply, size_t wanted) {
    write_all(fd, frame, count);
    read_all(fd, reply, wanted);
    if (reply[6] != 0) {
        fprintf(stderr, "serve_client: error %d\n", reply[6]);
        exit(1);
    }
}

int main(int argc, char **argv) {
    if (argc != 4) return 2;
    int rounds = atoi(argv[3]);
    unsigned char frame[256], take[64], reply[256], *at;
    struct sockaddr_un name = {.sun_family = AF_UNIX};
    strncpy(name.sun_path, argv[1], sizeof name.sun_path - 1);
    int fd = socket(AF_UNIX, SOCK_STREAM, 0);
    for (int tries = 0; connect(fd, (struct sockaddr *)&name, sizeof name) != 0; tries++) {
        if (tries == 500) fail("connect");
        usleep(10000);
    }

    at = begin(frame, 0, 12);
    at = number(at, 1000, 4);
    at = number(at, 1000, 4);
    at = number(at, 1, 4);
    ask(fd, frame, (size_t)(at - frame), reply, 7);

    at = begin(frame, 1, 8);
    at = number(at, (uint64_t)atoi(argv[2]), 4);
    at = number(at, 512 + 0600, 4);
    ask(fd, frame, (size_t)(at - frame), reply, 11);
    uint64_t id = ((uint64_t)reply[7] << 24) | ((uint64_t)reply[8] << 16) | ((uint64_t)reply[9] << 8) | reply[10];

    at = begin(frame, 2, 16 + TEXT);
    at = number(at, id, 4);
    at = number(at, 1, 8);
    at = number(at, 0, 4);
    memset(at, 'x', TEXT);
    size_t send_bytes = (size_t)(at + TEXT - frame);
    at = begin(take, 3, 20);
    at = number(at, id, 4);
    at = number(at, TEXT, 4);
    at = number(at, 0, 8);
    at = number(at, 0, 4);
    size_t take_bytes = (size_t)(at - take);

    struct timespec first, last;
    clock_gettime(CLOCK_MONOTONIC, &first);
    for (int i = 0; i < rounds; i++) {
        ask(fd, frame, send_bytes, reply, 7);
        ask(fd, take, take_bytes, reply, 15 + TEXT);
    }
    clock_gettime(CLOCK_MONOTONIC, &last);
    double seconds = (double)(last.tv_sec - first.tv_sec) + (double)(last.tv_nsec - first.tv_nsec) / 1e9;
    printf("%d %.6f\n", 2 * rounds, seconds);
    return 0;
}
