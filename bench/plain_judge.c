/*
 * Judges a record, refusals 1 to 12 in document 01's order, and adds up the length of its sheet on
 * the way. Every plain call starts here; none looks at a byte that was not judged. Nothing is done
 * for the place of a refusal before something is refused.
 */
#include "plain_blocks.h"

unsigned plain_right_scale(const uint8_t *bytes)
{
    const unsigned points = bytes[0], c = bytes[1], b = bytes[2], k = bytes[3];
    const unsigned step = bytes[4], half_turn = bytes[6];
    if (points < 1)
        return 0;
    if (c < 1 || c > 16)
        return 1;
    if (b < 4 || b > 8)
        return 2;
    if (k < 2 || k > 8)
        return 3;
    if (step < 1)
        return 4;
    return half_turn < 1 ? 6 : SCALE;
}

static fsk_answer judge_header(const plain_record *record, size_t length)
{
    const uint8_t *bytes = record->bytes;
    unsigned right;
    if (length < HEADER || length > LARGEST_RECORD)
        return plain_refused(BAD_SIZE);
    if (memcmp(bytes, "FSK", 4) != 0)
        return refused_at(record, BAD_IDENTIFIER, bytes, 0);
    if (memcmp(bytes + 4, "010", 4) != 0)
        return refused_at(record, BAD_VERSION, bytes + 4, 0);
    if (plain_two_bytes(bytes + 8) != 0 || plain_two_bytes(bytes + 10) != length)
        return refused_at(record, BAD_LENGTH, bytes + 8, 0);
    if (bytes[14] < 1)
        return refused_at(record, BAD_HEADER, bytes + 14, 0);
    if ((right = plain_right_scale(bytes + 15)) < SCALE)
        return refused_at(record, BAD_HEADER, bytes + 15 + right, 0);
    if (plain_two_bytes(bytes + 22) != 0)
        return refused_at(record, BAD_HEADER, bytes + 22, 0);
    return plain_accepted(0);
}

unsigned plain_right_values(const uint8_t *header, uint8_t *seen)
{
    const unsigned number = header[0], position = header[1];
    const unsigned impression = header[2], quality = header[3];
    if (number != (position < POSITIONS ? seen[position] : 0))
        return 0;
    if (position >= POSITIONS)
        return 1;
    if (impression > 3 && impression != 8 && impression != 9)
        return 2;
    if (quality > 100)
        return 3;
    seen[position]++;
    return VIEW_VALUES;
}

static fsk_answer judge_segments(plain_record *record, const plain_view *view)
{
    const uint8_t *at = view->extended.bytes;
    size_t left = view->extended.length;
    while (left > 0) {
        size_t length;
        if (left < SEGMENT_HEADER)
            return refused_at(record, BAD_SEGMENT, at, 0);
        length = plain_two_bytes(at + 2);
        if (length < SEGMENT_HEADER || length > left)
            return refused_at(record, BAD_SEGMENT, at + 2, 0);
        record->sheet_length += SHEET_SEGMENT + length - SEGMENT_HEADER;
        at += length;
        left -= length;
    }
    return plain_accepted(0);
}

/* The length field at *at and the block behind it, each found whole; *at moves on behind them. */
static inline fsk_answer find_block(const plain_record *record, const uint8_t **at,
                                    plain_block *block)
{
    if (record->end - *at < 2)
        return refused_at(record, PAST_END, *at, 0);
    *block = plain_block_at(*at);
    if ((size_t)(record->end - block->bytes) < block->length)
        return refused_at(record, PAST_END, block->bytes, 0);
    *at = plain_block_end(*block);
    return plain_accepted(0);
}

static fsk_answer judge_view(plain_record *record, const uint8_t **at, uint8_t *seen,
                             plain_view *view)
{
    fsk_answer refusal;
    unsigned right;
    if (record->end - *at < VIEW_HEADER)
        return refused_at(record, PAST_END, *at, 0);
    if ((right = plain_right_values(*at, seen)) < VIEW_VALUES)
        return refused_at(record, BAD_VIEW, *at + right, 0);
    record->sheet_length += SHEET_VIEW;
    *at += VIEW_HEADER - 2; /* its last field is the skeleton's length */
    if ((refusal = find_block(record, at, &view->skeleton)).number != 0)
        return refusal;
    if ((refusal = judge_skeleton(record, view)).number != 0)
        return refusal;
    if ((refusal = find_block(record, at, &view->index)).number != 0)
        return refusal;
    if ((refusal = judge_index(record, view)).number != 0)
        return refusal;
    if ((refusal = find_block(record, at, &view->extended)).number != 0)
        return refusal;
    return judge_segments(record, view);
}

fsk_answer plain_judge(const uint8_t *bytes, size_t length, plain_name wanted,
                       plain_record *record)
{
    uint8_t seen[POSITIONS] = {0};
    const uint8_t *at;
    fsk_answer refusal;
    record->bytes = bytes;
    if ((refusal = judge_header(record, length)).number != 0)
        return refusal;
    record->end = bytes + length;
    record->views = bytes[14];
    plain_set_widths(record, bytes + 15);
    record->sheet_length = SHEET_RECORD;
    record->has_view = 0;
    at = bytes + HEADER;
    for (uint32_t place = 0; place < record->views; place++) {
        const uint8_t *header = at;
        plain_name name;
        plain_view view;
        if ((refusal = judge_view(record, &at, seen, &view)).number != 0)
            return refusal;
        name = plain_name_at(header);
        if (name.finger == wanted.finger && name.number == wanted.number) {
            record->has_view = 1;
            record->view = view;
        }
    }
    return at == record->end ? plain_accepted(0) : refused_at(record, BYTES_OVER, at, 0);
}
