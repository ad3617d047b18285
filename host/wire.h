/* What passes between daemon and client, and the fields in it. All numbers are
 * little-endian.
 *
 * A packet to the daemon is one frame, any bytes. A packet back is its reply's
 * frame. On connecting, the daemon sends a greeting: the number of accepted
 * calls (8 bytes) and the last one's reply (12, zeros past its frame). */
#ifndef WIRE_H
#define WIRE_H

#include <stddef.h>
#include <stdint.h>

enum {
    COUNT_SIZE = 8,
    REPLY_SIZE = 12,
    GREETING_SIZE = COUNT_SIZE + REPLY_SIZE,
    LONGEST_FRAME = 65535,
};

enum { SETUP = 0x0301, GRANTED = 0x8001, REFUSED = 0x8002, DONE = 0x8003 };

/* The field of two bytes at a place. */
static inline unsigned field(const uint8_t *bytes, size_t at)
{
    return bytes[at] | (unsigned)bytes[at + 1] << 8;
}

static inline unsigned kind(const uint8_t *frame)
{
    return field(frame, 2);
}

/* A number of eight bytes. */
static inline uint64_t number(const uint8_t *bytes)
{
    uint64_t value = 0;
    for (int i = 7; i >= 0; i--)
        value = value << 8 | bytes[i];
    return value;
}

static inline void put_number(uint8_t *bytes, uint64_t value)
{
    for (int i = 0; i < 8; i++)
        bytes[i] = (uint8_t)(value >> 8 * i);
}

#endif
