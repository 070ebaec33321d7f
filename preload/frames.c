#include "frames.h"

#include <errno.h>
#include <limits.h>
#include <stdbool.h>

/* Where a field is among those of its reply. */
enum { STAT_MODE = 20, ROW_ID = 1, ROW_MODE = 13 };

static void put(struct frame *frame, uint64_t value, int bytes)
{
    for (int i = bytes - 1; i >= 0; i--)
        frame->bytes[frame->length++] = (unsigned char)(value >> (8 * i));
}

static uint64_t number(const unsigned char *bytes, int count)
{
    uint64_t value = 0;
    for (int i = 0; i < count; i++)
        value = value << 8 | bytes[i];
    return value;
}

static uint64_t take(struct frame *frame, int bytes)
{
    frame->read += (size_t)bytes;
    return number(frame->bytes + frame->read - bytes, bytes);
}

void frame_begin(struct frame *frame, enum operation operation)
{
    *frame = (struct frame){.length = LENGTH_BYTES, .operation = operation, .version = VERSION_TWO};
    put(frame, VERSION_TWO, 1);
    put(frame, operation, 1);
}

void frame_state_version(struct frame *frame, enum version version)
{
    frame->version = version;
    frame->bytes[LENGTH_BYTES] = (unsigned char)version;
}

void frame_put_u32(struct frame *frame, uint32_t value) { put(frame, value, 4); }

void frame_put_u64(struct frame *frame, uint64_t value) { put(frame, value, 8); }

/* The bytes of a request that are in the caller's memory. */
static size_t outside(const struct frame *frame)
{
    return frame->operation == SND ? frame->message.iov_len : 0;
}

void frame_end(struct frame *frame)
{
    size_t length = frame->length + outside(frame);
    frame->length = 0;
    put(frame, length - LENGTH_BYTES, 4);
    frame->length = length;
}

int frame_queue(const struct frame *frame)
{
    switch (frame->operation) {
    case SND:
    case RCV:
    case STAT:
    case SET:
    case RM:
    case HOLD: return (int)number(frame->bytes + REQUEST_HEAD, 4);
    default: return -1;
    }
}

int frame_found(const struct frame *frame)
{
    const unsigned char *fields = frame->bytes + REPLY_HEAD;
    switch (frame->operation) {
    case GET: return (int)number(fields, 4);
    case ROW: return fields[0] == 1 ? (int)number(fields + ROW_ID, 4) : -1;
    default: return -1;
    }
}

/* Whether the reply to a request has a message. */
static bool gets_message(const struct frame *frame)
{
    return frame->operation == RCV || frame->operation == HOLD;
}

/* Fills two pieces, of which the second one may be empty. */
static void fill(struct frame *frame, struct iovec pieces[2], size_t inside, bool has_message)
{
    pieces[0] = (struct iovec){frame->bytes, inside};
    pieces[1] = has_message ? frame->message : (struct iovec){frame->bytes, 0};
}

void frame_request(struct frame *frame, struct iovec pieces[2])
{
    fill(frame, pieces, frame->length - outside(frame), frame->operation == SND);
}

void frame_reply(struct frame *frame, struct iovec pieces[2])
{
    bool has_message = gets_message(frame);
    fill(frame, pieces, has_message ? REPLY_HEAD : sizeof frame->bytes, has_message);
}

size_t frame_length(const unsigned char *bytes)
{
    return LENGTH_BYTES + (size_t)number(bytes, LENGTH_BYTES);
}

/* Returns the errno of an error byte, or -1 if the protocol has no such error. The protocol's
 * numbers are its own. */
static int error_of(unsigned char error)
{
    switch (error) {
    case 1: return EPERM;
    case 2: return ENOENT;
    case 7: return E2BIG;
    case 11: return EAGAIN;
    case 13: return EACCES;
    case 17: return EEXIST;
    case 22: return EINVAL;
    case 28: return ENOSPC;
    case 42: return ENOMSG;
    case 43: return EIDRM;
    case 75: return EOVERFLOW;
    default: return -1;
    }
}

int64_t frame_type(const struct frame *frame)
{
    return (int64_t)number(frame->message.iov_base, TYPE_BYTES);
}

/* Whether the fields of a row are those of no queue, or of one. */
static bool is_row(const unsigned char *fields, size_t count)
{
    if (count == 1)
        return fields[0] == 0;
    return count == ROW_FIELDS && fields[0] == 1 && number(fields + ROW_ID, 4) <= INT_MAX
           && number(fields + ROW_MODE, 2) <= MODE_MAX;
}

/* Whether a reply without an error has the fields of its operation, within their limits. */
static bool has_fields(const struct frame *frame)
{
    const unsigned char *fields = frame->bytes + REPLY_HEAD;
    size_t count = frame->length - REPLY_HEAD;
    switch (frame->operation) {
    case HELLO: return count == 4 && number(fields, 4) <= SLOTS_MAX;
    case GET: return count == 4 && number(fields, 4) <= INT_MAX;
    case RCV:
    case HOLD:
        return count >= TYPE_BYTES && count <= frame->message.iov_len && frame_type(frame) > 0;
    case STAT: return count == STAT_FIELDS && number(fields + STAT_MODE, 2) <= MODE_MAX;
    case ROW: return is_row(fields, count);
    default: return count == 0;
    }
}

int frame_judge(struct frame *frame)
{
    if (frame->length < REPLY_HEAD || frame_length(frame->bytes) != frame->length)
        return -1;
    frame->read = LENGTH_BYTES;
    if (take(frame, 1) != frame->version || take(frame, 1) != frame->operation)
        return -1;
    unsigned char error = frame_take_u8(frame);
    if (error != 0)
        return frame->length == REPLY_HEAD ? error_of(error) : -1;
    return has_fields(frame) ? 0 : -1;
}

uint8_t frame_take_u8(struct frame *frame) { return (uint8_t)take(frame, 1); }

uint16_t frame_take_u16(struct frame *frame) { return (uint16_t)take(frame, 2); }

uint32_t frame_take_u32(struct frame *frame) { return (uint32_t)take(frame, 4); }

uint64_t frame_take_u64(struct frame *frame) { return take(frame, 8); }
