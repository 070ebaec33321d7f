/* The frames of a session. A request is built in a buffer, and its reply is read into the same
 * buffer. The body of a message is not copied: it goes from the caller's memory to the socket, or
 * from the socket to the caller's memory. docs/wire.md has the layout. */
#ifndef FRAMES_H
#define FRAMES_H

#include <stddef.h>
#include <stdint.h>
#include <sys/uio.h>

/* Those from HOLD on are only in frames of version 3. */
enum operation { HELLO, GET, SND, RCV, STAT, SET, RM, ROW, HOLD, DONE, BACK };

enum version { VERSION_TWO = 2, VERSION_THREE = 3 };

enum {
    TEXT_MAX = 8192,                 /* the longest message */
    LENGTH_BYTES = 4,                /* the length at the beginning of a frame */
    REQUEST_HEAD = LENGTH_BYTES + 2, /* a request up to its fields */
    REPLY_HEAD = LENGTH_BYTES + 3,   /* a reply up to its fields */
    SLOTS_MAX = 65536,               /* the most that a server may report */
    SND_FIELDS = 16,                 /* those of a send without the body */
    TYPE_BYTES = 8, /* the field of a received message that comes before its body */
    STAT_FIELDS = 66,
    ROW_FIELDS = 23,
    MODE_MAX = 0777,
    FRAME_ROOM = REPLY_HEAD + STAT_FIELDS + 1, /* more than any frame without its message body */
};

struct frame {
    unsigned char bytes[FRAME_ROOM];
    size_t length; /* the bytes of the frame, with those of the message */
    size_t read;   /* the bytes of a reply that were taken from it */
    int slots;     /* of a reply: how many slots its server has */
    enum operation operation;
    enum version version;
    struct iovec message; /* in the caller's memory: the body of a send; the room of a receive or a
                             hold for what follows REPLY_HEAD, which is the type and the body */
};

void frame_begin(struct frame *frame, enum operation operation);
void frame_put_u32(struct frame *frame, uint32_t value);
void frame_put_u64(struct frame *frame, uint64_t value);
/* Writes the length of a request, once all of it is there. */
void frame_end(struct frame *frame);
/* States the version of a request, which is that of its session. It is 2 unless this is called. */
void frame_state_version(struct frame *frame, enum version version);

/* The queue that a request names by its identifier, or a number below 0. */
int frame_queue(const struct frame *frame);
/* The queue that a reply without an error has found, or -1. */
int frame_found(const struct frame *frame);

/* The two pieces of memory that a request is in, and those that its reply goes to. */
void frame_request(struct frame *frame, struct iovec pieces[2]);
void frame_reply(struct frame *frame, struct iovec pieces[2]);

/* Returns the length of the frame that begins with these four bytes. */
size_t frame_length(const unsigned char *bytes);

/* Judges a reply that is there as a whole. Returns 0, or the errno that it reports, or -1 if it is
 * no reply to the request. */
int frame_judge(struct frame *frame);

/* The type of a message that was received, as it came. */
int64_t frame_type(const struct frame *frame);
uint8_t frame_take_u8(struct frame *frame);
uint16_t frame_take_u16(struct frame *frame);
uint32_t frame_take_u32(struct frame *frame);
uint64_t frame_take_u64(struct frame *frame);

#endif
