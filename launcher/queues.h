/* Files of queues, as `sysvmsg save` prints them: a line states the format, each queue has a line,
 * and after it a line for each of its messages. */
#ifndef QUEUES_H
#define QUEUES_H

#include <stdbool.h>
#include <stddef.h>
#include <stdio.h>

#include "options.h"

/* The line that states the format. As the last line it marks the end of a file that was saved
 * whole. */
#define QUEUES_FORMAT "{\"format\":\"sysvmsg-queues\",\"version\":1}\n"

/* What a server is given of a file. */
struct parts {
    FILE *first; /* what it loads before it serves */
    FILE *rest;  /* messages for which its queues or its pool have no room then; its first lines are
                  * the  format and a queue */
    FILE *left;  /* private queues with messages, which it cannot make again */
    size_t rest_messages;
    size_t private_queues, private_messages;
    bool has_end; /* the file has the mark of its end */
};

/* Splits a file for a server with this number of blocks. A line that is not understood is in
 * `first`, where each line has the number that it has in the file. If the file ends in the middle
 * of a queue, or cannot be split, `why` says so. */
bool queues_split(FILE *file, unsigned long blocks, struct parts *parts, char why[WHY_BYTES]);

/* The parts of a file without queues. */
bool queues_none(struct parts *parts, char why[WHY_BYTES]);

/* The number of messages that a file has, from the beginning. */
size_t queues_count(FILE *file);

/* Appends what a file has from this line on, counted from 1, so that it can be loaded. Returns
 * whether that succeeded. */
bool queues_append(FILE *file, unsigned long line, FILE *target);

#endif
