/* Runs the slots, and ends them by signals. */
#ifndef RUN_H
#define RUN_H

#include "options.h"

/* Returns the status to exit with. */
int run(const struct options *options);

#endif
