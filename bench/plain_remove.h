/*
 * What a removal's files share: which lines stay, the bits of those that do put once more, and what
 * becomes of the view's segments.
 */
#ifndef PLAIN_REMOVE_H
#define PLAIN_REMOVE_H

#include "plain_orders.h"

enum { WORD = 32, WORDS = MOST_LINES / WORD };

/* Which lines stay, a bit for each, and how many stay below each word's first line. So the new
 * number of a line is found without a walk. */
typedef struct {
    uint32_t stays[WORDS];
    uint16_t below[WORDS];
} plain_survivors;

static inline int plain_stays(const plain_survivors *kept, uint32_t line)
{
    return kept->stays[line / WORD] >> line % WORD & 1;
}

/* The bits of a block's lines on the way to a new block. Lines that stay and stand side by side are
 * put as one run. */
typedef struct {
    plain_reader from;
    plain_writer to;
    size_t run; /* the bits that wait to be put: `from` stands before them */
} plain_moving;

/* The next line, which has so many bits. */
static inline void plain_move(plain_moving *lines, size_t bits, int stays)
{
    if (stays) {
        lines->run += bits;
    } else {
        plain_put_bits(&lines->to, &lines->from, lines->run);
        plain_pass(&lines->from, bits);
        lines->run = 0;
    }
}

/* Puts what waits, filled up to a byte with zeros, and gives the place behind it. */
static inline uint8_t *plain_moved(plain_moving *lines)
{
    plain_put_bits(&lines->to, &lines->from, lines->run);
    return plain_put_rest(lines->to);
}

/* 16 and 26, of the segments of a view that loses lines; if it is neither, `length` is how long the
 * extended block will be. */
fsk_answer plain_judge_kept_segments(const plain_view *view, const plain_survivors *kept,
                                     size_t *length);

/* Puts that block, without its length, and gives the place behind it. */
uint8_t *plain_put_kept_segments(uint8_t *out, const plain_view *view,
                                 const plain_survivors *kept);

#endif
