#include "relay.h"

#include <errno.h>
#include <string.h>
#include <unistd.h>

bool relay_is_over(const struct relay *relay) { return relay->input < 0 && relay->length == 0; }

int relay_input(const struct relay *relay) { return relay->chosen == 0 ? relay->input : -1; }

int relay_output(const struct relay *relay) { return relay->chosen > 0 ? STDERR_FILENO : -1; }

void relay_read(struct relay *relay)
{
    ssize_t got =
        read(relay->input, relay->bytes + relay->length, sizeof relay->bytes - relay->length);
    if (got > 0) {
        relay->length += (size_t)got;
    } else if (got == 0 || errno != EINTR) {
        close(relay->input);
        relay->input = -1;
    }
}

/* Takes bytes off the front. */
static void take(struct relay *relay, size_t count)
{
    relay->is_in_line = relay->bytes[count - 1] != '\n';
    relay->length -= count;
    memmove(relay->bytes, relay->bytes + count, relay->length);
}

/* Writes to standard error. If that fails, the line is dropped. */
void relay_write(struct relay *relay)
{
    ssize_t put = write(STDERR_FILENO, relay->bytes, relay->chosen);
    if (put < 0 && (errno == EINTR || errno == EAGAIN))
        return;
    size_t count = put > 0 ? (size_t)put : relay->chosen;
    take(relay, count);
    relay->chosen -= count;
}

/* The length of the line at the front, or 0 if none is whole. */
static size_t front_length(const struct relay *relay)
{
    const char *end = memchr(relay->bytes, '\n', relay->length);
    if (end)
        return (size_t)(end - relay->bytes) + 1;
    return relay->length == sizeof relay->bytes || relay->input < 0 ? relay->length : 0;
}

static bool begins_with(const struct relay *relay, const char *words)
{
    size_t length = strlen(words);
    return relay->length >= length && memcmp(relay->bytes, words, length) == 0;
}

static bool ends_with(const struct relay *relay, const char *words)
{
    size_t length = strlen(words), front = front_length(relay);
    return front >= length && memcmp(relay->bytes + front - length, words, length) == 0;
}

enum line relay_front(const struct relay *relay)
{
    if (relay->chosen > 0 || front_length(relay) == 0)
        return NO_LINE;
    if (relay->is_in_line)
        return OTHER_LINE;
    if (begins_with(relay, "sysvmsg: serving "))
        return ends_with(relay, " alone\n") ? ALONE_LINE : SERVING_LINE;
    return begins_with(relay, "sessions ") ? SUMS_LINE : OTHER_LINE;
}

void relay_choose(struct relay *relay) { relay->chosen = front_length(relay); }

void relay_drop(struct relay *relay) { take(relay, front_length(relay)); }

void relay_end(struct relay *relay)
{
    if (relay->input >= 0)
        close(relay->input);
    relay->input = -1;
    relay->length = relay->chosen = 0;
}
