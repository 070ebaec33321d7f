/* The words of the command line. */
#ifndef OPTIONS_H
#define OPTIONS_H

#include <stdbool.h>
#include <stdint.h>

enum { WHY_BYTES = 512, JOBS_MAX = 256, LONGEST_SECONDS = 1000000 };

struct options {
    const char *path;
    const char *key_word, *failed_word; /* as they were given; failed_word may be NULL */
    int key, failed;
    int64_t type; /* as that of a receive: -N is --upto N */
    int jobs;
    int pause_ms;
    int seconds; /* for which a message is held; 0: without a limit */
    int retry_ms;
    bool ends_if_empty, creates;
    char **command;
};

/* Reads the words after the program's name. If they are not understood, `why` says so. */
bool options_read(char **words, struct options *options, char why[WHY_BYTES]);

#endif
