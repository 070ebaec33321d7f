/* Copies from and to memory at an address that the program passed. The memory may be missing. */
#ifndef CALLER_MEMORY_H
#define CALLER_MEMORY_H

#include <stdbool.h>
#include <stddef.h>
#include <sys/uio.h>

/* Whether the first eight bytes at an address can be read. */
bool is_readable(const void *address);

/* Each returns 0, or EFAULT if some of the memory can't be read or written. */
int copy_from_caller(const struct iovec *to, int pieces, const void *from);
int copy_to_caller(void *to, const struct iovec *from, int pieces);

#endif
