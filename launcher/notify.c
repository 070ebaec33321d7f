#define _GNU_SOURCE
#include "notify.h"

#include <stddef.h>
#include <stdlib.h>
#include <string.h>
#include <sys/socket.h>
#include <sys/un.h>
#include <unistd.h>

static struct sockaddr_un manager = {.sun_family = AF_UNIX};
static socklen_t manager_length; /* 0: there is none */

void notify_begin(void)
{
    const char *path = getenv("NOTIFY_SOCKET");
    size_t length = path ? strlen(path) : 0;
    if (length > 1 && length <= sizeof manager.sun_path && (*path == '/' || *path == '@')) {
        memcpy(manager.sun_path, path, length);
        manager_length = (socklen_t)(offsetof(struct sockaddr_un, sun_path) + length);
        if (*path == '@')
            *manager.sun_path = '\0';
    }
    unsetenv("NOTIFY_SOCKET");
}

void notify(const char *state)
{
    if (manager_length == 0)
        return;
    int fd = socket(AF_UNIX, SOCK_DGRAM | SOCK_CLOEXEC, 0);
    if (fd < 0)
        return;
    sendto(
        fd, state, strlen(state), MSG_NOSIGNAL, (const struct sockaddr *)&manager, manager_length);
    close(fd);
}
