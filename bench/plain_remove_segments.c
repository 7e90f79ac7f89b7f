/*
 * The segments of a view that loses lines: those of local quality stay as they are, those of pores
 * lose the pores of these lines, and any other stands in the way. What stays of a payload of pores
 * is copied as runs of bits: the same distances have the same elements in any payload.
 */
#include "plain_pores.h"

/* The segment that starts here, and its payload. */
static plain_block segment_at(const uint8_t *at)
{
    return (plain_block){at, plain_two_bytes(at + 2)};
}

static plain_block payload_of(plain_block segment)
{
    return (plain_block){segment.bytes + SEGMENT_HEADER, segment.length - SEGMENT_HEADER};
}

static int is_of_pores(plain_block segment)
{
    return plain_two_bytes(segment.bytes) == SWEAT_PORES;
}

int plain_lets_lines_go(plain_block extended)
{
    const uint8_t *end = plain_block_end(extended);
    for (const uint8_t *at = extended.bytes; at < end; at = plain_block_end(segment_at(at)))
        if (plain_two_bytes(at) != LOCAL_QUALITY && plain_two_bytes(at) != SWEAT_PORES)
            return 0;
    return 1;
}

fsk_answer plain_judge_kept_segments(const plain_view *view, const plain_survivors *kept,
                                     size_t *length)
{
    const uint8_t *at = view->extended.bytes, *end = plain_block_end(view->extended);
    if (!plain_lets_lines_go(view->extended))
        return plain_refused(OTHER_SEGMENT);
    *length = view->extended.length;
    while (at < end) {
        const plain_block segment = segment_at(at), payload = payload_of(segment);
        if (is_of_pores(segment)) {
            plain_judged_pores pores;
            if (!plain_judge_pores(payload, view->lines, kept, &pores))
                return plain_refused(BAD_PORES);
            *length -= payload.length - plain_pores_length(pores.e, pores.staying);
        }
        at = plain_block_end(segment);
    }
    return plain_accepted(0);
}

/* What is left of a payload that keeps the rules, in a view that has lines. */
static uint8_t *put_kept_pores(uint8_t *out, plain_block payload, uint32_t lines,
                               const plain_survivors *kept)
{
    const unsigned e = payload.bytes[2];
    plain_reader reader = plain_reader_at(payload.bytes, 8 * PORES_HEADER);
    plain_moving moving = {reader, {plain_put_bytes(out, payload.bytes, PORES_HEADER), 0, 0}, 0};
    size_t left = 8 * (payload.length - PORES_HEADER) - e; /* bits behind the first element */
    plain_pass(&reader, e);
    for (uint32_t line = 0; line < lines; line++) {
        size_t bits = e; /* its zero element is passed already, and so is the next line's then */
        while (left >= e) {
            left -= e;
            if (plain_take(&reader, e) == 0)
                break;
            bits += e;
        }
        plain_move(&moving, bits, plain_stays(kept, line));
    }
    return plain_moved(&moving);
}

uint8_t *plain_put_kept_segments(uint8_t *out, const plain_view *view,
                                 const plain_survivors *kept)
{
    const uint8_t *at = view->extended.bytes, *end = plain_block_end(view->extended);
    while (at < end) {
        const plain_block segment = segment_at(at);
        uint8_t *const start = out;
        if (is_of_pores(segment)) {
            out = plain_put_bytes(out, at, SEGMENT_HEADER);
            out = put_kept_pores(out, payload_of(segment), view->lines, kept);
            plain_put_two_bytes(start + 2, (uint32_t)(out - start));
        } else {
            out = plain_put_bytes(out, at, segment.length);
        }
        at = plain_block_end(segment);
    }
    return out;
}
