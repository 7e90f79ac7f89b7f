/*
 * Reads a record as a sheet: judges it, which also says how long the sheet is, and only then goes
 * through the record once more and writes. The writers trust the judge and test nothing.
 */
#include "plain.h"

/* Every writer gives the place behind what it wrote. */

/* A field's tag and the length of its value. */
static uint8_t *put_tag(uint8_t *out, uint8_t tag, size_t length)
{
    out[0] = tag;
    return plain_put_two_bytes(out + 1, (uint32_t)length);
}

/* A line's start or end. */
static uint8_t *put_end(uint8_t *out, const plain_record *record, plain_reader *reader)
{
    out[0] = (uint8_t)plain_take(reader, 2);
    out[1] = (uint8_t)plain_take(reader, record->b);
    out = plain_put_two_bytes(out + 2, plain_take(reader, record->c));
    return plain_put_two_bytes(out, plain_take(reader, record->c));
}

/* The sheet has a line's end before its codes, the record behind them. */
static uint8_t *put_line(uint8_t *out, const plain_record *record, plain_reader *reader)
{
    uint8_t *start = out + 3, *end = start + 6, *codes = end + 6;
    uint32_t count;
    put_end(start, record, reader);
    count = plain_take(reader, COUNT_OF_CODES);
    put_tag(out, TAG_LINE, 12 + count);
    out = plain_take_each(codes, reader, record->k, count, 1u << (record->k - 1));
    put_end(end, record, reader);
    return out;
}

static uint8_t *put_index(uint8_t *out, plain_block index, uint32_t lines)
{
    const unsigned w = index.bytes[0];
    plain_reader reader = plain_reader_at(index.bytes, 8);
    out = put_tag(out, TAG_INDEX, 1);
    *out++ = (uint8_t)w;
    for (uint32_t line = 0; line < lines; line++) {
        const uint32_t count = plain_take(&reader, w);
        uint32_t neighbour = line;
        out = put_tag(out, TAG_LIST, 2 * (size_t)count);
        for (uint32_t i = 0; i < count; i++) {
            neighbour -= plain_take(&reader, w);
            out = plain_put_two_bytes(out, neighbour);
        }
    }
    return out;
}

static uint8_t *put_segments(uint8_t *out, plain_block extended)
{
    const uint8_t *at = extended.bytes;
    while (at < plain_block_end(extended)) {
        const size_t length = plain_two_bytes(at + 2);
        const size_t payload = length - SEGMENT_HEADER;
        out = put_tag(out, TAG_SEGMENT, 2 + payload);
        out = plain_put_bytes(out, at, 2);
        out = plain_put_bytes(out, at + SEGMENT_HEADER, payload);
        at += length;
    }
    return out;
}

/* The view that starts at *at, which moves on behind it. */
static uint8_t *put_view(uint8_t *out, const plain_record *record, const uint8_t **at)
{
    const plain_block skeleton = plain_block_at(*at + VIEW_HEADER - 2);
    const plain_block index = plain_block_at(plain_block_end(skeleton));
    const plain_block extended = plain_block_at(plain_block_end(index));
    plain_reader reader = plain_reader_at(skeleton.bytes, 0);
    uint32_t lines = 0;
    out = put_tag(out, TAG_VIEW, VIEW_HEADER - 2);
    out = plain_put_bytes(out, *at, VIEW_HEADER - 2);
    for (; reader.next < plain_block_end(skeleton); lines++) /* 8 or more bits are left */
        out = put_line(out, record, &reader);
    if (index.length > 0)
        out = put_index(out, index, lines);
    *at = plain_block_end(extended);
    return put_segments(out, extended);
}

static void put_sheet(uint8_t *out, const plain_record *record)
{
    const uint8_t *at = record->bytes + HEADER;
    out = put_tag(out, TAG_RECORD, 9);
    out = plain_put_bytes(out, record->bytes + 12, 2);
    out = plain_put_bytes(out, record->bytes + 15, 7);
    for (uint32_t place = 0; place < record->views; place++)
        out = put_view(out, record, &at);
}

fsk_answer plain_read(const uint8_t *record, size_t record_length, uint8_t *sheet,
                      size_t sheet_length)
{
    const plain_name any = {0, 0}; /* no view is asked for */
    plain_record judged;
    const fsk_answer refusal = plain_judge(record, record_length, any, &judged);
    if (refusal.number != 0)
        return refusal;
    if (judged.sheet_length > sheet_length)
        return plain_refused(NO_ROOM);
    put_sheet(sheet, &judged);
    return plain_accepted(judged.sheet_length);
}
