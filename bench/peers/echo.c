/* A bare echo on a Unix socket with the frame sizes of a send and a receive of 64 bytes: 86 bytes up and 7 down, then 26 up
 * and 79 down.
 *   echo serve PATH          serves one connection
 *   echo ask PATH ROUNDS     prints the round trips and the seconds that they took
 */
#include <stdio.h>
#include <stdlib.h>
#include <string.h>
#include <sys/socket.h>
#include <sys/un.h>
#include <time.h>
#include <unistd.h>

static const size_t UP[2] = {86, 26}, DOWN[2] = {7, 79};

static int move_all(ssize_t (*move)(int, void *, size_t), int fd, char *bytes, size_t count) {
    while (count > 0) {
        ssize_t moved = move(fd, bytes, count);
        if (moved <= 0) return 0;
        bytes += moved;
        count -= (size_t)moved;
    }
    return 1;
}

static ssize_t put(int fd, void *bytes, size_t count) { return write(fd, bytes, count); }

int main(int argc, char **argv) {
    if (argc < 3) return 2;
    char bytes[128] = {0};
    struct sockaddr_un name = {.sun_family = AF_UNIX};
    strncpy(name.sun_path, argv[2], sizeof name.sun_path - 1);
    int fd = socket(AF_UNIX, SOCK_STREAM, 0);
    if (strcmp(argv[1], "serve") == 0) {
        if (bind(fd, (struct sockaddr *)&name, sizeof name) != 0 || listen(fd, 1) != 0) return 1;
        int peer = accept(fd, NULL, NULL);
        for (int i = 0; move_all(read, peer, bytes, UP[i]) && move_all(put, peer, bytes, DOWN[i]); i = 1 - i) {
        }
        return 0;
    }
    if (argc != 4) return 2;
    for (int tries = 0; connect(fd, (struct sockaddr *)&name, sizeof name) != 0; tries++) {
        if (tries == 500) return 1;
        usleep(10000);
    }
    int rounds = atoi(argv[3]);
    struct timespec first, last;
    clock_gettime(CLOCK_MONOTONIC, &first);
    for (int i = 0; i < 2 * rounds; i++)
        if (!move_all(put, fd, bytes, UP[i % 2]) || !move_all(read, fd, bytes, DOWN[i % 2])) return 1;
    clock_gettime(CLOCK_MONOTONIC, &last);
    double seconds = (double)(last.tv_sec - first.tv_sec) + (double)(last.tv_nsec - first.tv_nsec) / 1e9;
    printf("%d %.6f\n", 2 * rounds, seconds);
    return 0;
}
