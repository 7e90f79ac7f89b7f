/*
 * Bytes and fields of some bits, for all plain files: numbers of two and of four bytes, a reader
 * and a writer of fields, and runs of numbers that have up to 8 bits each in a record and a byte
 * outside it (codes, the values of cells).
 */
#ifndef PLAIN_FIELDS_H
#define PLAIN_FIELDS_H

#include <stddef.h>
#include <stdint.h>
#include <string.h>

static inline uint32_t plain_two_bytes(const uint8_t *at)
{
    return (uint32_t)at[0] << 8 | at[1];
}

static inline uint32_t plain_four_bytes(const uint8_t *at)
{
    return plain_two_bytes(at) << 16 | plain_two_bytes(at + 2);
}

/* A writer gives the place behind what it wrote. */
static inline uint8_t *plain_put_two_bytes(uint8_t *out, uint32_t number)
{
    out[0] = (uint8_t)(number >> 8);
    out[1] = (uint8_t)number;
    return out + 2;
}

static inline uint8_t *plain_put_four_bytes(uint8_t *out, uint32_t number)
{
    return plain_put_two_bytes(plain_put_two_bytes(out, number >> 16), number);
}

static inline uint8_t *plain_put_bytes(uint8_t *out, const uint8_t *from, size_t length)
{
    memcpy(out, from, length);
    return out + length;
}

static inline uint64_t plain_whole_bytes(uint64_t bits)
{
    return (bits + 7) / 8;
}

/* A reading place within some bytes: the next byte, and how many bits of the byte before it, the
 * low ones of `held`, are still to be read. They are always fewer than 8. */
typedef struct {
    const uint8_t *next;
    uint32_t held;
    unsigned left;
} plain_reader;

static inline plain_reader plain_reader_at(const uint8_t *bytes, size_t bit)
{
    plain_reader reader = {bytes + bit / 8, 0, 0};
    if (bit % 8 != 0) {
        reader.held = *reader.next++;
        reader.left = 8 - (unsigned)(bit % 8);
    }
    return reader;
}

/* The number in the next `width` (1 to 16) bits. No byte is touched that holds none of them. */
static inline uint32_t plain_take(plain_reader *reader, unsigned width)
{
    while (reader->left < width) {
        reader->held = reader->held << 8 | *reader->next++;
        reader->left += 8;
    }
    reader->left -= width;
    return reader->held >> reader->left & ((1u << width) - 1);
}

/* Passes `bits` bits; likewise no byte beyond them is touched. */
static inline void plain_pass(plain_reader *reader, size_t bits)
{
    if (bits < reader->left)
        reader->left -= (unsigned)bits;
    else
        *reader = plain_reader_at(reader->next, bits - reader->left);
}

/* A writing place: the next byte, and how many bits, the low ones of `held`, are put but not yet
 * written. They are always fewer than 32. */
typedef struct {
    uint8_t *next;
    uint64_t held;
    unsigned waiting;
} plain_writer;

/* Puts a number into the next `width` (1 to 32) bits, which hold it. */
static inline void plain_put(plain_writer *to, unsigned width, uint32_t number)
{
    to->held = to->held << width | number;
    to->waiting += width;
    if (to->waiting >= 32) {
        to->waiting -= 32;
        to->next = plain_put_four_bytes(to->next, (uint32_t)(to->held >> to->waiting));
    }
}

/* Writes what waits, filled up to a byte with zeros, and gives the place behind it. */
static inline uint8_t *plain_put_rest(plain_writer to)
{
    for (; to.waiting >= 8; to.waiting -= 8)
        *to.next++ = (uint8_t)(to.held >> (to.waiting - 8));
    if (to.waiting > 0)
        *to.next++ = (uint8_t)(to.held << (8 - to.waiting));
    return to.next;
}

/* Whether each byte is a number of `width` (1 to 8) bits: from that bit on it has no 1 or, as two's
 * complement, no bit that differs from the one below it. Of eight bytes at a time only bit 0 then
 * meets another byte's bit, and such a width is at least 2. */
static inline int plain_each_fits(const uint8_t *bytes, size_t count, unsigned width,
                                  int is_complement)
{
    const uint64_t from_width = UINT64_C(0x0101010101010101) * (0xFFu << width & 0xFF);
    uint64_t over = 0, eight;
    for (; count >= 8; count -= 8) {
        memcpy(&eight, bytes, 8);
        over |= is_complement ? eight ^ eight << 1 : eight;
        bytes += 8;
    }
    for (; count > 0; count--) {
        eight = *bytes++;
        over |= is_complement ? eight ^ eight << 1 : eight;
    }
    return (over & from_width) == 0;
}

/* Writes the next `count` numbers of `width` (1 to 8) bits as a byte each; `sign` is the bit that
 * makes one negative, 0 if none is. */
static inline uint8_t *plain_take_each(uint8_t *out, plain_reader *reader, unsigned width,
                                       size_t count, uint32_t sign)
{
    plain_reader from = *reader; /* a copy that no byte written can change: it stays in registers */
    for (size_t i = 0; i < count; i++)
        *out++ = (uint8_t)((plain_take(&from, width) ^ sign) - sign);
    *reader = from;
    return out;
}

/* Puts the low `width` (1 to 8) bits of each byte, four at a time: they have no more than 32. */
static inline void plain_put_each(plain_writer *to, unsigned width, const uint8_t *bytes,
                                  size_t count)
{
    const uint32_t low = (1u << width) - 1;
    for (; count >= 4; count -= 4) {
        const uint32_t two = (bytes[0] & low) << width | (bytes[1] & low);
        plain_put(to, 4 * width, (two << width | (bytes[2] & low)) << width | (bytes[3] & low));
        bytes += 4;
    }
    for (; count > 0; count--)
        plain_put(to, width, *bytes++ & low);
}

#endif
