#include "options.h"

#include <errno.h>
#include <limits.h>
#include <stdio.h>
#include <stdlib.h>
#include <string.h>

/* Reads a whole number in decimal. */
static bool read_number(const char *word, int64_t least, int64_t most, int64_t *number)
{
    if (!*word || word[strspn(word, "0123456789")])
        return false;
    errno = 0;
    long long found = strtoll(word, NULL, 10);
    *number = found;
    return errno == 0 && found >= least && found <= most;
}

/* Reads a key: a decimal number, or 0x and hexadecimal digits. */
static bool read_key(const char *word, int *key)
{
    int64_t number = 0;
    if (strncmp(word, "0x", 2) != 0) {
        bool is_read = read_number(word, 1, INT_MAX, &number);
        *key = (int)number;
        return is_read;
    }
    size_t digits = strspn(word + 2, "0123456789abcdefABCDEF");
    if (digits == 0 || digits > 8 || word[2 + digits])
        return false;
    *key = (int)(uint32_t)strtoul(word + 2, NULL, 16);
    return *key != 0;
}

/* Reads a time in seconds, which may have a fraction. */
static bool read_seconds(const char *word, int *milliseconds)
{
    size_t digits = strspn(word, "0123456789");
    size_t after = word[digits] == '.' ? 1 + strspn(word + digits + 1, "0123456789") : 0;
    if (digits == 0 || digits > 7 || after == 1 || word[digits + after])
        return false;
    double seconds = strtod(word, NULL);
    *milliseconds = (int)(seconds * 1000 + 0.5);
    return seconds <= LONGEST_SECONDS;
}

static bool refuse_value(const char *name, const char *value, const char *bounds, char *why)
{
    snprintf(why, WHY_BYTES, "%s %s: it must be %s", name, value, bounds);
    return false;
}

static const char KEYS[] = "1 to 2147483647, or 0x and 1 to 8 hexadecimal digits, not 0";
static const char TYPES[] = "a number, 1 to 9223372036854775807";
static const char TIMES[] = "a number of seconds, 0 to 1000000";

/* Which options were given. */
struct given {
    bool type, upto, failed, jobs, seconds, pause, retry, until_empty, create;
};

/* An option: where it notes that it was given, and how its value is read, or NULL. */
struct option {
    const char *name;
    bool *is_given;
    bool (*read)(const char *name, const char *value, struct options *options, char *why);
};

static bool read_type(const char *name, const char *value, struct options *options, char *why)
{
    return read_number(value, 1, INT64_MAX, &options->type)
           || refuse_value(name, value, TYPES, why);
}

static bool read_upto(const char *name, const char *value, struct options *options, char *why)
{
    if (!read_type(name, value, options, why))
        return false;
    options->type = -options->type;
    return true;
}

static bool read_failed(const char *name, const char *value, struct options *options, char *why)
{
    options->failed_word = value;
    return read_key(value, &options->failed) || refuse_value(name, value, KEYS, why);
}

static bool read_jobs(const char *name, const char *value, struct options *options, char *why)
{
    int64_t jobs = 0;
    if (!read_number(value, 1, JOBS_MAX, &jobs))
        return refuse_value(name, value, "a number, 1 to 256", why);
    options->jobs = (int)jobs;
    return true;
}

static bool read_limit(const char *name, const char *value, struct options *options, char *why)
{
    int64_t seconds = 0;
    if (!read_number(value, 1, LONGEST_SECONDS, &seconds))
        return refuse_value(name, value, "a number, 1 to 1000000", why);
    options->seconds = (int)seconds;
    return true;
}

static bool read_pause(const char *name, const char *value, struct options *options, char *why)
{
    return read_seconds(value, &options->pause_ms) || refuse_value(name, value, TIMES, why);
}

static bool read_retry(const char *name, const char *value, struct options *options, char *why)
{
    return read_seconds(value, &options->retry_ms) || refuse_value(name, value, TIMES, why);
}

/* Reads the option at *word, and moves *word to its last word. */
static bool read_option(char ***word, struct options *options, struct given *given, char *why)
{
    const struct option all[] = {{"--type", &given->type, read_type},
        {"--upto", &given->upto, read_upto}, {"--failed", &given->failed, read_failed},
        {"--jobs", &given->jobs, read_jobs}, {"--seconds", &given->seconds, read_limit},
        {"--pause", &given->pause, read_pause}, {"--retry", &given->retry, read_retry},
        {"--until-empty", &given->until_empty, NULL}, {"--create", &given->create, NULL}};
    size_t length = strcspn(**word, "="), i = 0, count = sizeof all / sizeof *all;
    while (
        i < count && (strlen(all[i].name) != length || strncmp(all[i].name, **word, length) != 0))
        i++;
    const char *value = strchr(**word, '=');
    if (i == count || (value && !all[i].read)) {
        snprintf(why, WHY_BYTES, "there is no option %s", **word);
        return false;
    }
    if (*all[i].is_given) {
        snprintf(why, WHY_BYTES, "%s is given twice", all[i].name);
        return false;
    }
    *all[i].is_given = true;
    if (!all[i].read)
        return true;
    value = value ? value + 1 : (*word)[1] ? *++*word : NULL;
    if (value && strcmp(value, "--") != 0)
        return all[i].read(all[i].name, value, options, why);
    snprintf(why, WHY_BYTES, "%s needs a value", all[i].name);
    return false;
}

/* Reads PATH or KEY. */
static bool read_place(const char *word, struct options *options, char *why)
{
    if (!options->path) {
        options->path = word;
        return true;
    }
    if (!options->key_word) {
        options->key_word = word;
        return read_key(word, &options->key) || refuse_value("KEY", word, KEYS, why);
    }
    snprintf(why, WHY_BYTES, "%s: a command stands after --", word);
    return false;
}

/* What is wrong with the words as a whole, or NULL. */
static const char *fault(const struct options *options, const struct given *given)
{
    if (!options->path || !*options->path)
        return "a path is missing";
    if (!options->key_word)
        return "a key is missing";
    if (!options->command || !*options->command)
        return "-- and a command are missing";
    if (given->type && given->upto)
        return "--type and --upto exclude each other";
    if (given->failed && options->failed == options->key)
        return "--failed needs another key";
    return NULL;
}

bool options_read(char **words, struct options *options, char why[WHY_BYTES])
{
    struct given given = {0};
    *options = (struct options){.jobs = 1, .pause_ms = 1000};
    for (char **word = words; *word; word++) {
        if (strcmp(*word, "--") == 0) {
            options->command = word + 1;
            break;
        }
        bool is_read = **word == '-' ? read_option(&word, options, &given, why)
                                     : read_place(*word, options, why);
        if (!is_read)
            return false;
    }
    options->ends_if_empty = given.until_empty;
    options->creates = given.create;
    const char *wrong = fault(options, &given);
    if (wrong)
        snprintf(why, WHY_BYTES, "%s", wrong);
    return !wrong;
}
