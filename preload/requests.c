#include "requests.h"

#include <string.h>

#include "frames.h"

enum { NOWAIT = 2048 };

int request_get(struct connection *opened, int key, int flags, int *id)
{
    struct frame frame;
    frame_begin(&frame, GET);
    frame_put_u32(&frame, (uint32_t)key);
    frame_put_u32(&frame, (uint32_t)flags);
    frame_end(&frame);
    int error = ask(opened, &frame, false, -1);
    if (error == 0)
        *id = (int)frame_take_u32(&frame);
    return error;
}

int request_snd(struct connection *opened, int id, int64_t type, const void *body, size_t size,
    int flags, int milliseconds_at_most)
{
    struct frame frame;
    frame_begin(&frame, SND);
    frame.message = (struct iovec){(void *)body, size};
    frame_put_u32(&frame, (uint32_t)id);
    frame_put_u64(&frame, (uint64_t)type);
    frame_put_u32(&frame, (uint32_t)flags);
    frame_end(&frame);
    return ask(opened, &frame, !(flags & NOWAIT), milliseconds_at_most);
}

/* A receive, and what a hold has of it. */
struct receive {
    int id;
    void *message;
    size_t size;
    int64_t type;
    int flags;
};

static void begin_receive(
    struct frame *frame, enum operation operation, const struct receive *receive)
{
    frame_begin(frame, operation);
    frame->message = (struct iovec){receive->message, TYPE_BYTES + receive->size};
    frame_put_u32(frame, (uint32_t)receive->id);
    frame_put_u32(frame, (uint32_t)receive->size);
    frame_put_u64(frame, (uint64_t)receive->type);
    frame_put_u32(frame, (uint32_t)receive->flags);
}

/* Asks for a message. */
static int ask_message(struct connection *opened, struct frame *frame,
    const struct receive *receive, int milliseconds_at_most, size_t *got)
{
    frame_end(frame);
    int error = ask(opened, frame, !(receive->flags & NOWAIT), milliseconds_at_most);
    if (error != 0)
        return error;
    int64_t found = frame_type(frame);
    memcpy(receive->message, &found, sizeof found);
    *got = frame->length - REPLY_HEAD - TYPE_BYTES;
    return 0;
}

int request_rcv(struct connection *opened, int id, void *message, size_t size, int64_t type,
    int flags, int milliseconds_at_most, size_t *got)
{
    const struct receive receive = {id, message, size, type, flags};
    struct frame frame;
    begin_receive(&frame, RCV, &receive);
    return ask_message(opened, &frame, &receive, milliseconds_at_most, got);
}

int request_hold(struct connection *opened, int id, void *message, size_t size, int64_t type,
    int flags, int milliseconds_at_most, uint32_t seconds, size_t *got)
{
    const struct receive receive = {id, message, size, type, flags};
    struct frame frame;
    begin_receive(&frame, HOLD, &receive);
    frame_put_u32(&frame, seconds);
    return ask_message(opened, &frame, &receive, milliseconds_at_most, got);
}

int request_done(struct connection *opened)
{
    struct frame frame;
    frame_begin(&frame, DONE);
    frame_end(&frame);
    return ask(opened, &frame, false, -1);
}

int request_back(struct connection *opened, int milliseconds_at_most)
{
    struct frame frame;
    frame_begin(&frame, BACK);
    frame_end(&frame);
    return ask(opened, &frame, true, milliseconds_at_most);
}

/* Asks for one thing of one queue or slot. */
static int ask_of(
    struct connection *opened, struct frame *frame, enum operation operation, int number)
{
    frame_begin(frame, operation);
    frame_put_u32(frame, (uint32_t)number);
    frame_end(frame);
    return ask(opened, frame, false, -1);
}

int request_stat(struct connection *opened, int id, struct queue_stat *stat)
{
    struct frame frame;
    int error = ask_of(opened, &frame, STAT, id);
    if (error != 0)
        return error;
    stat->key = (int32_t)frame_take_u32(&frame);
    stat->uid = frame_take_u32(&frame);
    stat->gid = frame_take_u32(&frame);
    stat->cuid = frame_take_u32(&frame);
    stat->cgid = frame_take_u32(&frame);
    stat->mode = frame_take_u16(&frame);
    stat->cbytes = frame_take_u32(&frame);
    stat->qnum = frame_take_u32(&frame);
    stat->qbytes = frame_take_u32(&frame);
    stat->lspid = frame_take_u32(&frame);
    stat->lrpid = frame_take_u32(&frame);
    stat->stime = frame_take_u64(&frame);
    stat->rtime = frame_take_u64(&frame);
    stat->ctime = frame_take_u64(&frame);
    return 0;
}

int request_set(struct connection *opened, int id, const struct queue_set *set)
{
    struct frame frame;
    frame_begin(&frame, SET);
    frame_put_u32(&frame, (uint32_t)id);
    frame_put_u32(&frame, set->uid);
    frame_put_u32(&frame, set->gid);
    frame_put_u32(&frame, set->mode);
    frame_put_u32(&frame, set->qbytes);
    frame_end(&frame);
    return ask(opened, &frame, false, -1);
}

int request_rm(struct connection *opened, int id)
{
    struct frame frame;
    return ask_of(opened, &frame, RM, id);
}

int request_row(struct connection *opened, int slot, struct queue_row *row)
{
    struct frame frame;
    int error = ask_of(opened, &frame, ROW, slot);
    if (error != 0)
        return error;
    *row = (struct queue_row){.slots = frame.slots, .present = frame_take_u8(&frame) == 1};
    if (!row->present)
        return 0;
    row->id = (int)frame_take_u32(&frame);
    row->key = (int32_t)frame_take_u32(&frame);
    row->uid = frame_take_u32(&frame);
    row->mode = frame_take_u16(&frame);
    row->cbytes = frame_take_u32(&frame);
    row->qnum = frame_take_u32(&frame);
    return 0;
}
