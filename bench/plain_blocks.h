/*
 * The judges of a skeleton and of an index block, which a record and a card's object share. They add
 * up the length of the sheet on the way. They stand here whole, so that each of the two files that
 * judge has them compiled for itself.
 */
#ifndef PLAIN_BLOCKS_H
#define PLAIN_BLOCKS_H

#include "plain.h"

/* Bytes of the sheet's fields, tag and length included, without what comes in varying number. */
enum {
    SHEET_RECORD = 3 + 9,
    SHEET_VIEW = 3 + 8,
    SHEET_LINE = 3 + 12,
    SHEET_INDEX = 3 + 1,
    SHEET_LIST = 3,
    SHEET_SEGMENT = 3 + 2
};

/* The refusal for what stands `bit` bits behind the byte at `from`. */
static fsk_answer refused_at(const plain_record *record, uint32_t number, const uint8_t *from,
                             size_t bit)
{
    return (fsk_answer){number, (uint32_t)(8 * (size_t)(from - record->bytes) + bit), 0};
}

/* The first of the last `left` bits of a block that is 1; the eighth of them if none is. */
static size_t bad_padding(plain_block block, size_t left)
{
    const size_t first = 8 * block.length - left;
    for (size_t bit = first; bit < 8 * block.length; bit++)
        if ((block.bytes[bit / 8] >> (7 - bit % 8) & 1) != 0)
            return bit;
    return first + 7;
}

static fsk_answer judge_skeleton(plain_record *record, plain_view *view)
{
    const unsigned end_bits = record->end_bits, k = record->k;
    const uint8_t *bytes = view->skeleton.bytes;
    const size_t bits = 8 * view->skeleton.length;
    size_t bit = 0, sheet_length = 0;
    uint32_t lines = 0;
    while (bits - bit >= 8) {
        size_t line_bits = 2 * end_bits + COUNT_OF_CODES;
        uint32_t codes;
        if (lines == MOST_LINES)
            return refused_at(record, TOO_MANY_LINES, bytes, bit);
        if (bits - bit < line_bits)
            return refused_at(record, BAD_LINE, bytes, bit);
        codes = plain_codes(bytes, bit, end_bits);
        line_bits += codes * k;
        if (bits - bit < line_bits)
            return refused_at(record, BAD_LINE, bytes, bit);
        bit += line_bits;
        sheet_length += SHEET_LINE + codes;
        lines++;
    }
    if (!plain_is_padding(view->skeleton, bits - bit))
        return refused_at(record, BAD_LINE, bytes, bad_padding(view->skeleton, bits - bit));
    record->sheet_length += sheet_length;
    view->lines = lines;
    return plain_accepted(0);
}

/* One line's `count` differences of w bits: only the first may be 0, their sum at most the line.
 * How many stand before the first that breaks this; `count` if none does. */
static uint32_t right_differences(plain_reader *reader, unsigned w, uint32_t count, uint32_t line)
{
    uint32_t sum = 0;
    for (uint32_t i = 0; i < count; i++) {
        const uint32_t difference = plain_take(reader, w);
        sum += difference;
        if (sum > line || (difference == 0 && i > 0))
            return i;
    }
    return count;
}

static fsk_answer judge_index(plain_record *record, const plain_view *view)
{
    const uint8_t *bytes = view->index.bytes;
    const size_t bits = 8 * view->index.length;
    plain_reader reader = plain_reader_at(bytes, 0);
    size_t left = bits, entries = 0; /* left: bits */
    unsigned w;
    if (bits == 0)
        return plain_accepted(0);
    w = plain_take(&reader, 8);
    left -= 8;
    if (w < 1 || w > 16)
        return refused_at(record, BAD_INDEX, bytes, 0);
    for (uint32_t line = 0; line < view->lines; line++) {
        uint32_t count, whole, right; /* whole: the differences that do not pass the end */
        if (left < w)
            return refused_at(record, BAD_INDEX, bytes, bits - left);
        count = plain_take(&reader, w);
        left -= w;
        whole = left < (size_t)count * w ? (uint32_t)(left / w) : count;
        right = right_differences(&reader, w, whole, line);
        if (right < count)
            return refused_at(record, BAD_INDEX, bytes, bits - left + (size_t)right * w);
        left -= (size_t)count * w;
        entries += count;
    }
    if (left >= 8 || !plain_is_padding(view->index, left))
        return refused_at(record, BAD_INDEX, bytes, bad_padding(view->index, left));
    record->sheet_length += SHEET_INDEX + (size_t)SHEET_LIST * view->lines + 2 * entries;
    return plain_accepted(0);
}

#endif
