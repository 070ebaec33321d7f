/* The options of the server, and --users, --run and --state of this program. They are checked
 * before it is started, so that a refusal shows the usage of this program and not that of the
 * server, which has options that nobody gave. */
#ifndef OPTIONS_H
#define OPTIONS_H

#include <stdbool.h>
#include <stddef.h>
#include <stdio.h>

enum { WHY_BYTES = 512 };

/* Whether the server takes these words. If not, `why` says which one it refuses. */
bool options_are_valid(char **words, char why[WHY_BYTES]);

/* Prints the options for a usage. */
void options_print(FILE *stream);

#endif
