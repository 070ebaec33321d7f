#include "options.h"

#include <errno.h>
#include <stdint.h>
#include <stdlib.h>
#include <string.h>

enum { WIDTH = 80, INDENT = 9 };

/* The option that may be given more than once. */
#define AS "--as"

/* An option, and what its value is: a number in these bounds, or a path if the base is 0. */
struct option {
    const char *name;
    const char *value; /* null: it has none */
    const char *what;
    int base;
    uint64_t least, most;
};

static const struct option options[] = {
    {"--mode", "OCTAL", "an octal number", 8, 0, 0777},
    {"--replace", NULL, NULL, 0, 0, 0},
    {AS, "SOCKET=UID:GID", NULL, 0, 0, 0},
    {"--no-main", NULL, NULL, 0, 0, 0},
    {"--users", "GROUP|LIST", NULL, 0, 0, 0},
    {"--run", "DIR", NULL, 0, 0, 0},
    {"--state", "FILE", NULL, 0, 0, 0},
    {"--blocks", "B", "a number", 10, 128, 65536},
    {"--workers", "W", "a number", 10, 1, 16},
    {"--at-once", "N", "a number", 10, 1, 16384},
    {"--sessions", "N", "a number", 10, 0, UINT64_MAX},
    {"--idle", "SECONDS", "a whole number of seconds", 10, 0, UINT32_MAX},
    {"--stall", "SECONDS", "a whole number of seconds", 10, 0, UINT32_MAX},
    {"--drain", "SECONDS", "a whole number of seconds", 10, 0, UINT32_MAX},
    {"--hold", NULL, NULL, 0, 0, 0},
    {"--stats", "PATH2", NULL, 0, 0, 0},
};

enum { OPTIONS = sizeof options / sizeof *options };

/* Words that have the server print something and exit. */
static bool prints(const char *word)
{
    static const char *const words[] = {"-h", "--help", "-V", "--version"};
    for (size_t i = 0; i < sizeof words / sizeof *words; i++)
        if (strcmp(word, words[i]) == 0)
            return true;
    return false;
}

/* The option of a word, which may have its value behind a =, or NULL. */
static const struct option *find(const char *word)
{
    size_t length = strcspn(word, "=");
    for (size_t i = 0; i < OPTIONS; i++)
        if (strlen(options[i].name) == length && strncmp(options[i].name, word, length) == 0)
            return &options[i];
    return NULL;
}

/* Whether a text is a number in the bounds of an option. */
static bool is_in_bounds(const struct option *option, const char *text)
{
    const char *digits = option->base == 8 ? "01234567" : "0123456789";
    if (!*text || text[strspn(text, digits)])
        return false;
    errno = 0;
    unsigned long long number = strtoull(text, NULL, option->base);
    return errno == 0 && number >= option->least && number <= option->most;
}

static bool judge_value(const struct option *option, const char *text, char why[WHY_BYTES])
{
    if (option->base == 0 || is_in_bounds(option, text))
        return true;
    const char *format = option->base == 8 ? "%s %s: it must be %s, %llo to %llo"
                                           : "%s %s: it must be %s, %llu to %llu";
    snprintf(why, WHY_BYTES, format, option->name, text, option->what,
        (unsigned long long)option->least, (unsigned long long)option->most);
    return false;
}

/* Says why a word is none of the options. */
static void explain(const char *word, char why[WHY_BYTES])
{
    if (strcmp(word, "--until-eof") == 0)
        snprintf(why, WHY_BYTES, "--until-eof is always set");
    else if (*word == '-' && strcmp(word, "--") != 0)
        snprintf(why, WHY_BYTES, "there is no option %s", word);
    else
        snprintf(why, WHY_BYTES, "%s: only one path is taken, and it comes first", word);
}

/* Judges the option at *word and its value, and moves *word to the last of them. */
static bool judge(char ***word, bool is_given[OPTIONS], char why[WHY_BYTES])
{
    const struct option *option = find(**word);
    const char *value = strchr(**word, '=');
    if (!option || (value && !option->value)) {
        explain(**word, why);
        return false;
    }
    bool was_given = is_given[option - options];
    is_given[option - options] = true;
    if (was_given && strcmp(option->name, AS) != 0) {
        snprintf(why, WHY_BYTES, "%s is given twice", option->name);
        return false;
    }
    if (!option->value)
        return true;
    value = value ? value + 1 : *++*word;
    if (value)
        return judge_value(option, value, why);
    snprintf(why, WHY_BYTES, "%s needs a value, %s", option->name, option->value);
    return false;
}

bool options_are_valid(char **words, char why[WHY_BYTES])
{
    bool is_given[OPTIONS] = {false};
    for (char **word = words; *word; word++) {
        if (prints(*word))
            return true;
        if (!judge(&word, is_given, why))
            return false;
    }
    return true;
}

void options_print(FILE *stream)
{
    int at = fprintf(stream, "options:");
    for (const struct option *option = options; option < options + OPTIONS; option++) {
        const char *value = option->value ? option->value : "";
        int length = (int)(strlen(option->name) + strlen(value)) + 3;
        if (at + length > WIDTH)
            at = fprintf(stream, "\n%*s", INDENT - 1, "") - 1;
        at += fprintf(stream, " %s%s%s%s", option->name, *value ? " " : "", value,
            option + 1 < options + OPTIONS ? "," : "\n");
    }
}
