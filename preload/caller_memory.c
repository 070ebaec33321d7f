#define _GNU_SOURCE
#include "caller_memory.h"

#include <errno.h>
#include <string.h>
#include <sys/signalfd.h>
#include <unistd.h>

enum { NO_SUCH_FLAGS = -1 };

/* The system reads a set of signals before it refuses flags that do not exist. That costs less than
 * a copy, and changes nothing. */
bool is_readable(const void *address)
{
    if (!address)
        return false;
    int errno_before = errno;
    errno = 0;
    signalfd(-1, address, NO_SUCH_FLAGS);
    bool is_there = errno != EFAULT;
    errno = errno_before;
    return is_there;
}

static size_t sum(const struct iovec *pieces, int count)
{
    size_t bytes = 0;
    for (int i = 0; i < count; i++)
        bytes += pieces[i].iov_len;
    return bytes;
}

/* Whether the system refuses all such copies, as some sandboxes do. Then only a plain copy is
 * possible. */
static int is_refused(ssize_t copied) { return copied < 0 && errno != EFAULT; }

/* Copies within this process through the system, which fails with EFAULT if memory is missing. It
 * always reads the "other" process and writes to its caller, because memory checkers follow that
 * direction. */
static ssize_t copy(
    const struct iovec *to, int to_pieces, const struct iovec *from, int from_pieces)
{
    return process_vm_readv(
        getpid(), to, (unsigned long)to_pieces, from, (unsigned long)from_pieces, 0);
}

int copy_from_caller(const struct iovec *to, int pieces, const void *from)
{
    const struct iovec named = {(void *)from, sum(to, pieces)};
    ssize_t copied = copy(to, pieces, &named, 1);
    if (!is_refused(copied))
        return copied == (ssize_t)named.iov_len ? 0 : EFAULT;
    const char *at = from;
    for (int i = 0; i < pieces; at += to[i++].iov_len)
        memcpy(to[i].iov_base, at, to[i].iov_len);
    return 0;
}

int copy_to_caller(void *to, const struct iovec *from, int pieces)
{
    const struct iovec named = {to, sum(from, pieces)};
    ssize_t copied = copy(&named, 1, from, pieces);
    if (!is_refused(copied))
        return copied == (ssize_t)named.iov_len ? 0 : EFAULT;
    char *at = to;
    for (int i = 0; i < pieces; at += from[i++].iov_len)
        memcpy(at, from[i].iov_base, from[i].iov_len);
    return 0;
}
