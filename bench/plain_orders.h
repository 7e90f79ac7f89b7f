/*
 * What the orders on one view share: the refusals up to 14, and 17; the numbers of a new index; and
 * what is put once more, bits as they stand or numbers in another width.
 */
#ifndef PLAIN_ORDERS_H
#define PLAIN_ORDERS_H

#include "plain.h"

/* 1 to 12, 13 and 14. */
static inline fsk_answer plain_judge_order(const uint8_t *bytes, size_t length, plain_name view,
                                           uint32_t count, plain_record *record)
{
    const fsk_answer refusal = plain_judge_view(bytes, length, view, record);
    if (refusal.number == 0 && count != record->view.lines)
        return plain_refused(OTHER_COUNT);
    return refusal;
}

/* The same, and 17 where the view has no index. */
static inline fsk_answer plain_judge_pair_order(const uint8_t *bytes, size_t length,
                                                plain_name view, uint32_t count,
                                                plain_record *record)
{
    const fsk_answer refusal = plain_judge_order(bytes, length, view, count, record);
    if (refusal.number == 0 && record->view.index.length == 0)
        return plain_refused(NO_INDEX);
    return refusal;
}

/* What is ordered about two lines, by its number in a list of orders. */
typedef enum { JOIN = 0, PART = 1 } plain_act;

/* The numbers of an index, counts and differences alike: how many there are, and every bit that one
 * of them has. So `bits` is as wide as the widest of them. */
typedef struct {
    size_t numbers;
    uint32_t bits;
} plain_tally;

static inline void plain_tally_number(plain_tally *all, uint32_t number)
{
    all->numbers++;
    all->bits |= number;
}

static inline unsigned plain_least_width(plain_tally all)
{
    unsigned w = 1;
    while (all.bits >> w != 0)
        w++;
    return w;
}

static inline size_t plain_index_length(plain_tally all)
{
    return 1 + plain_whole_bytes(all.numbers * plain_least_width(all));
}

/* Puts the next `bits` bits of `from`, which moves on. */
static inline void plain_put_bits(plain_writer *to, plain_reader *from, size_t bits)
{
    plain_writer writer = *to; /* copies that no byte written can change: they stay in registers */
    plain_reader reader = *from;
    const unsigned odd = reader.left; /* bits up to the next byte */
    if (odd > 0 && bits >= odd) {
        plain_put(&writer, odd, plain_take(&reader, odd));
        bits -= odd;
    }
    for (; bits >= 32; bits -= 32) { /* from a byte on: else fewer than 8 are left */
        plain_put(&writer, 32, plain_four_bytes(reader.next));
        reader.next += 4;
    }
    while (bits > 0) {
        const unsigned width = bits < 16 ? (unsigned)bits : 16;
        plain_put(&writer, width, plain_take(&reader, width));
        bits -= width;
    }
    *to = writer;
    *from = reader;
}

/* Puts the next numbers of `from`, which have w bits each, in their new width. */
static inline void plain_put_numbers(plain_writer *to, unsigned new_w, plain_reader *from,
                                     unsigned w, size_t numbers)
{
    plain_writer writer = *to; /* copies that no byte written can change: they stay in registers */
    plain_reader reader = *from;
    if (w == new_w) {
        plain_put_bits(to, from, numbers * w);
        return;
    }
    for (; numbers > 0; numbers--)
        plain_put(&writer, new_w, plain_take(&reader, w));
    *to = writer;
    *from = reader;
}

#endif
