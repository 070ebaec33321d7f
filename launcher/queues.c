#define _GNU_SOURCE
#include "queues.h"

#include <errno.h>
#include <stdint.h>
#include <stdlib.h>
#include <string.h>
#include <sys/mman.h>

enum {
    BLOCK_BYTES = 64,
    MOST_MESSAGES = 256, /* of a queue */
    MOST_BYTES = 65536   /* the highest limit of a queue */
};

/* A queue of a file, which may state it more than once. */
struct queue {
    uint32_t key;
    char *line;     /* its last one */
    size_t at, end; /* where its limit is in that line */
    unsigned long limit;
    unsigned long bytes;        /* of the messages that the file has */
    unsigned long stated;       /* the number of messages that its last line states */
    unsigned long seen;         /* messages after that line */
    unsigned long taken, count; /* bytes and messages that are loaded first */
    bool is_full, has_rest;
};

struct split {
    FILE *file;
    struct parts *parts;
    unsigned long blocks;
    struct queue *queues;
    size_t count;
};

static bool is_format(const char *line) { return strcmp(line, QUEUES_FORMAT) == 0; }

static bool is_message(const char *line) { return strncmp(line, "{\"type\":", 8) == 0; }

/* Whether a line was not cut off. The last one need not end with an LF. */
static bool is_whole(const char *line)
{
    size_t length = strlen(line);
    return length > 0 && (line[length - 1] == '\n' || line[length - 1] == '}');
}

/* Reads the line of a queue, if it is one. */
static bool read_queue(const char *line, struct queue *queue)
{
    int at = 0, end = 0, all = 0;
    unsigned key, bytes;
    if (sscanf(line,
            "{\"key\":\"0x%8x\",\"msqid\":%*d,\"uid\":%*u,\"gid\":%*u,\"cuid\":%*u,\"cgid\":%*u,"
            "\"perms\":\"%*o\",\"qbytes\":%n%lu%n,\"bytes\":%u,\"messages\":%lu}%n",
            &key, &at, &queue->limit, &end, &bytes, &queue->stated, &all)
            != 4
        || all == 0)
        return false;
    queue->key = key;
    queue->at = (size_t)at;
    queue->end = (size_t)end;
    return true;
}

/* The number of bytes of a body in base64, from its first digit on. */
static size_t length_of_base64(const char *text)
{
    size_t digits = strcspn(text, "=\"");
    return digits * 3 / 4;
}

/* The number of bytes of a body that is a JSON string, from its first byte on. */
static size_t length_of_string(const char *text)
{
    size_t length = 0;
    for (; *text && *text != '"'; text++) {
        if (*text == '\\' && *++text == 'u' && strlen(text) > 4)
            text += 4;
        if (!*text)
            break;
        length++;
    }
    return length;
}

/* The number of bytes of the body of a message. */
static size_t length_of(const char *line)
{
    static const char body[] = ",\"body\":\"", base64[] = ",\"base64\":\"";
    const char *fields = line + 8 + strspn(line + 8, "0123456789");
    if (strncmp(fields, body, sizeof body - 1) == 0)
        return length_of_string(fields + sizeof body - 1);
    if (strncmp(fields, base64, sizeof base64 - 1) == 0)
        return length_of_base64(fields + sizeof base64 - 1);
    return 0;
}

/* The queue with this key, or NULL. */
static struct queue *find(struct split *split, uint32_t key)
{
    for (size_t i = 0; i < split->count; i++)
        if (split->queues[i].key == key)
            return &split->queues[i];
    return NULL;
}

/* Takes the line of a queue: the queue is new, or has another line before. Returns NULL if memory
 * is refused. */
static struct queue *take_queue(struct split *split, const struct queue *found, const char *line)
{
    struct queue *queue = find(split, found->key);
    if (!queue) {
        struct queue *all = realloc(split->queues, (split->count + 1) * sizeof *all);
        if (!all)
            return NULL;
        split->queues = all;
        queue = &all[split->count++];
        *queue = (struct queue){.key = found->key};
    }
    char *copy = strdup(line);
    if (!copy)
        return NULL;
    free(queue->line);
    queue->line = copy;
    queue->at = found->at;
    queue->end = found->end;
    queue->limit = found->limit;
    queue->stated = found->stated;
    queue->seen = 0;
    return queue;
}

/* Reads what the file has of each queue. Returns false if memory is refused; `last` is the queue of
 * the last line, or NULL. */
static bool read_queues(struct split *split, struct queue **last)
{
    char *line = NULL;
    size_t room = 0, lines = 0;
    bool is_well = true;
    struct queue found, *queue = NULL;
    while (is_well && getline(&line, &room, split->file) > 0) {
        split->parts->has_end = is_format(line) && lines > 0;
        lines++;
        if (is_format(line)) {
            queue = NULL;
        } else if (read_queue(line, &found)) {
            queue = take_queue(split, &found, line);
            is_well = queue;
        } else if (queue && is_message(line)) {
            queue->bytes += length_of(line);
            queue->seen += is_whole(line);
        }
    }
    free(line);
    *last = queue;
    return is_well;
}

/* The limit with which a queue is loaded: its own, or more if it has more bytes. */
static unsigned long limit_for(const struct queue *queue)
{
    if (queue->bytes <= queue->limit)
        return queue->limit;
    return queue->bytes < MOST_BYTES ? queue->bytes : MOST_BYTES;
}

/* Whether a message of this length is loaded first. Once one of a queue is not, none after it is.
 */
static bool fits(struct split *split, struct queue *queue, size_t length)
{
    unsigned long blocks = (length + BLOCK_BYTES - 1) / BLOCK_BYTES;
    if (queue->is_full || queue->count == MOST_MESSAGES || blocks > split->blocks
        || queue->taken + length > limit_for(queue)) {
        queue->is_full = true;
        return false;
    }
    queue->count++;
    queue->taken += length;
    split->blocks -= blocks;
    return true;
}

/* A file in memory, or NULL. */
static FILE *open_part(const char *name)
{
    int file = memfd_create(name, MFD_CLOEXEC);
    return file < 0 ? NULL : fdopen(file, "w+");
}

/* Adds a message to a part, after the line of its queue unless that is there. */
static bool add_to(FILE **part, const char *name, struct queue *queue, const char *line)
{
    if (!*part)
        *part = open_part(name);
    if (!*part)
        return false;
    if (!queue->has_rest)
        fprintf(*part, "%s%s", QUEUES_FORMAT, queue->line);
    queue->has_rest = true;
    fputs(line, *part);
    return true;
}

static void put_queue(const struct queue *queue, unsigned long limit, FILE *target)
{
    fprintf(target, "%.*s%lu%s", (int)queue->at, queue->line, limit, queue->line + queue->end);
}

/* Deals out the line of a queue. */
static void deal_queue(struct split *split, struct queue *queue)
{
    struct parts *parts = split->parts;
    queue->has_rest = false;
    if (queue->key == 0) {
        parts->private_queues++;
        fputs(QUEUES_FORMAT, parts->first);
    } else {
        put_queue(queue, limit_for(queue), parts->first);
    }
}

/* Deals out a message, of this queue or of none. */
static bool deal_message(struct split *split, struct queue *queue, const char *line)
{
    struct parts *parts = split->parts;
    if (!queue || (queue->key != 0 && fits(split, queue, length_of(line)))) {
        fputs(line, parts->first);
        return true;
    }
    /* (a line in its place, so that those after it keep their numbers) */
    fputs(QUEUES_FORMAT, parts->first);
    if (queue->key == 0) {
        parts->private_messages++;
        return add_to(&parts->left, "left", queue, line);
    }
    parts->rest_messages++;
    return add_to(&parts->rest, "rest", queue, line);
}

/* Deals out the lines of the file. Returns false if memory is refused. */
static bool deal(struct split *split)
{
    char *line = NULL;
    size_t room = 0;
    bool is_well = true;
    struct queue found, *queue = NULL;
    rewind(split->file);
    while (is_well && getline(&line, &room, split->file) > 0) {
        if (read_queue(line, &found)) {
            queue = take_queue(split, &found, line);
            is_well = queue;
            if (is_well)
                deal_queue(split, queue);
        } else if (is_message(line)) {
            is_well = deal_message(split, queue, line);
        } else {
            if (is_format(line))
                queue = NULL;
            fputs(line, split->parts->first);
        }
    }
    free(line);
    return is_well;
}

/* Once their messages are loaded, the queues whose limit was raised have their own. */
static void lower_limits(const struct split *split)
{
    for (size_t i = 0; i < split->count; i++) {
        const struct queue *queue = &split->queues[i];
        if (queue->key != 0 && limit_for(queue) != queue->limit)
            put_queue(queue, queue->limit, split->parts->first);
    }
}

static bool is_flushed(FILE *part) { return !part || (fflush(part) == 0 && !ferror(part)); }

bool queues_none(struct parts *parts, char why[WHY_BYTES])
{
    *parts = (struct parts){.first = open_part("first")};
    if (parts->first && fputs(QUEUES_FORMAT, parts->first) >= 0 && is_flushed(parts->first))
        return true;
    snprintf(why, WHY_BYTES, "%s", strerror(errno));
    return false;
}

bool queues_split(FILE *file, unsigned long blocks, struct parts *parts, char why[WHY_BYTES])
{
    *parts = (struct parts){.first = open_part("first")};
    struct split split = {file, parts, blocks, NULL, 0};
    struct queue *last = NULL;
    bool is_well = parts->first && read_queues(&split, &last) && !ferror(file);
    if (is_well && last && !parts->has_end && last->seen < last->stated) {
        snprintf(why, WHY_BYTES, "it ends in the middle of a queue");
        is_well = false;
    } else if (is_well) {
        is_well = deal(&split);
        lower_limits(&split);
        is_well = is_well && !ferror(file) && is_flushed(parts->first) && is_flushed(parts->rest)
                  && is_flushed(parts->left);
        if (!is_well)
            snprintf(why, WHY_BYTES, "%s", strerror(errno));
    } else {
        snprintf(why, WHY_BYTES, "%s", strerror(errno));
    }
    for (size_t i = 0; i < split.count; i++)
        free(split.queues[i].line);
    free(split.queues);
    return is_well;
}

size_t queues_count(FILE *file)
{
    char *line = NULL;
    size_t room = 0, count = 0;
    rewind(file);
    while (getline(&line, &room, file) > 0)
        count += is_message(line);
    free(line);
    return count;
}

bool queues_append(FILE *file, unsigned long line, FILE *target)
{
    char *text = NULL, *queue = NULL;
    size_t room = 0;
    struct queue found;
    rewind(file);
    for (unsigned long number = 1; getline(&text, &room, file) > 0; number++) {
        if (number == line && queue && is_message(text))
            fprintf(target, "%s%s", QUEUES_FORMAT, queue);
        if (number >= line)
            fputs(text, target);
        if (read_queue(text, &found)) {
            free(queue);
            queue = strdup(text);
            if (!queue)
                break;
        }
    }
    free(text);
    free(queue);
    return !ferror(file) && fflush(target) == 0 && !ferror(target);
}
