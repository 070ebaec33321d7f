/* What the server prints, line by line. A line is read on only once standard error has room for the
 * one before, so that no write blocks. */
#ifndef RELAY_H
#define RELAY_H

#include <stdbool.h>
#include <stddef.h>

enum { RELAY_BYTES = 4096 };

struct relay {
    int input; /* -1: the server has closed it */
    char bytes[RELAY_BYTES];
    size_t length;
    size_t chosen;   /* bytes at the front that are to be written */
    bool is_in_line; /* a part of the line at the front has left already */
};

enum line { NO_LINE, SERVING_LINE, ALONE_LINE, SUMS_LINE, OTHER_LINE };

/* Whether all that was read has been written or dropped, and no more is to come. */
bool relay_is_over(const struct relay *relay);

/* The descriptors to poll for input and for room, or -1. */
int relay_input(const struct relay *relay);
int relay_output(const struct relay *relay);

void relay_read(struct relay *relay);
void relay_write(struct relay *relay);

/* What the line at the front is: NO_LINE if none is whole, or one is being written. A line that is
 * longer than the room for it comes in parts. */
enum line relay_front(const struct relay *relay);

/* What is to be done with the line at the front. */
void relay_choose(struct relay *relay);
void relay_drop(struct relay *relay);

/* Drops all, also what is to come. */
void relay_end(struct relay *relay);

#endif
