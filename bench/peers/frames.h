/* The frames of mqserve that are used here: docs/ref/protocol.md has all. */
#ifndef FRAMES_H
#define FRAMES_H

#include <stddef.h>
#include <stdint.h>

enum opcode {
    HELLO = 1,
    MQ_OPEN = 3,
    MQ_SEND = 6,
    MQ_RECEIVE = 7,
    STARTED = 65,
    OPENED = 67,
    SENT = 70,
    RECEIVED = 71,
};

enum {
    /* The bytes before a frame's body: its length. */
    HEAD = 4,
    /* What stands before the message in the body of a send: opcode, description, priority. */
    BEFORE_SENT = 1 + 8 + 4,
    /* What stands before it in that of a received one: opcode, priority. */
    BEFORE_RECEIVED = 1 + 4,
    /* The body of a receive: opcode, description, length. */
    RECEIVE_BODY = 1 + 8 + 4,
};

/* Numbers are big-endian. */

static inline void write_u32(char *at, uint32_t number)
{
    for (int byte = 0; byte < 4; byte++)
        at[byte] = (char)(number >> (24 - 8 * byte));
}

static inline void write_u64(char *at, uint64_t number)
{
    write_u32(at, (uint32_t)(number >> 32));
    write_u32(at + 4, (uint32_t)number);
}

static inline uint32_t read_u32(const char *at)
{
    const unsigned char *bytes = (const unsigned char *)at;
    return (uint32_t)bytes[0] << 24 | (uint32_t)bytes[1] << 16 | (uint32_t)bytes[2] << 8 | bytes[3];
}

static inline uint64_t read_u64(const char *at)
{
    return (uint64_t)read_u32(at) << 32 | read_u32(at + 4);
}

#endif
