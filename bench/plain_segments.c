/*
 * A segment of a view: where its payload is, its local quality as values, and the record with that
 * quality rewritten. All three judge the whole record first. A view can have 65,535 times 65,535
 * cells, so that they are counted in 64 bits, and the bytes are counted before a cell is looked at.
 */
#include "plain_segments.h"

fsk_answer plain_find_segment(const uint8_t *record, size_t record_length, plain_name view,
                              uint32_t segment, plain_found *found)
{
    const plain_block *extended = &found->in.view.extended;
    const uint8_t *at;
    const fsk_answer refusal = plain_judge_view(record, record_length, view, &found->in);
    if (refusal.number != 0)
        return refusal;
    at = extended->bytes;
    for (; segment > 0 && at < plain_block_end(*extended); segment--)
        at += plain_two_bytes(at + 2);
    if (at == plain_block_end(*extended))
        return plain_refused(NO_SEGMENT);
    found->payload.bytes = at + SEGMENT_HEADER;
    found->payload.length = plain_two_bytes(at + 2) - SEGMENT_HEADER;
    return plain_accepted(0);
}

fsk_answer plain_segment(const uint8_t *record, size_t record_length, uint32_t finger,
                         uint32_t number, uint32_t segment)
{
    const plain_name view = {finger, number};
    plain_found found;
    const fsk_answer refusal = plain_find_segment(record, record_length, view, segment, &found);
    if (refusal.number != 0)
        return refusal;
    return (fsk_answer){0, (uint32_t)(8 * (found.payload.bytes - record)), found.payload.length};
}

/* ---- local quality ---- */

enum { MOST_BITS = 8 };

/* The cells of a view: how many, and the bits of a value. */
typedef struct {
    uint64_t count;
    unsigned bits;
} view_cells;

/* How many cells of so many points lie along the width or the height that stands here. */
static uint64_t cells_along(const uint8_t *size, unsigned points)
{
    return (plain_two_bytes(size) + points - 1) / points;
}

/* The cells that a payload or values tell of, which start with a cell's width, its height and the
 * bits of a value; 0 if these three break a rule. */
static int find_cells(plain_block from, const plain_view *view, view_cells *cells)
{
    const uint8_t *height = view->skeleton.bytes - 4, *width = height - 2; /* in the view header */
    if (from.length < QUALITY_HEADER || from.bytes[0] < 1 || from.bytes[1] < 1)
        return 0;
    if (from.bytes[2] < 1 || from.bytes[2] > MOST_BITS)
        return 0;
    cells->count = cells_along(width, from.bytes[0]) * cells_along(height, from.bytes[1]);
    cells->bits = from.bytes[2];
    return 1;
}

static uint64_t payload_length(view_cells cells)
{
    return QUALITY_HEADER + plain_whole_bytes(cells.count * cells.bits);
}

/* Whether a stored payload keeps the rules. */
static int is_payload(plain_block payload, const plain_view *view, view_cells *cells)
{
    if (!find_cells(payload, view, cells) || payload.length != payload_length(*cells))
        return 0;
    return plain_is_padding(payload, 8 * (payload.length - QUALITY_HEADER)
                                         - cells->count * cells->bits);
}

/* Whether values that are to be written keep them. */
static int are_values(plain_block values, const plain_view *view, view_cells *cells)
{
    if (!find_cells(values, view, cells) || values.length - QUALITY_HEADER != cells->count)
        return 0;
    return plain_each_fits(values.bytes + QUALITY_HEADER, cells->count, cells->bits, 0);
}

static void put_values(uint8_t *out, plain_block payload, view_cells cells)
{
    plain_reader reader = plain_reader_at(payload.bytes, 8 * QUALITY_HEADER);
    out = plain_put_bytes(out, payload.bytes, QUALITY_HEADER);
    plain_take_each(out, &reader, cells.bits, cells.count, 0);
}

fsk_answer plain_quality(const uint8_t *record, size_t record_length, uint32_t finger,
                         uint32_t number, uint32_t segment, uint8_t *values,
                         size_t values_length)
{
    const plain_name view = {finger, number};
    plain_found found;
    view_cells cells;
    const fsk_answer refusal = plain_find_typed(record, record_length, view, segment,
                                                LOCAL_QUALITY, &found);
    if (refusal.number != 0)
        return refusal;
    if (!is_payload(found.payload, &found.in.view, &cells))
        return plain_refused(BAD_QUALITY);
    if (QUALITY_HEADER + cells.count > values_length)
        return plain_refused(NO_ROOM);
    put_values(values, found.payload, cells);
    return plain_accepted(QUALITY_HEADER + cells.count);
}

/* The payload of these values; gives the place behind it. */
static uint8_t *put_payload(uint8_t *out, const uint8_t *values, view_cells cells)
{
    plain_writer to = {plain_put_bytes(out, values, QUALITY_HEADER), 0, 0};
    plain_put_each(&to, cells.bits, values + QUALITY_HEADER, cells.count);
    return plain_put_rest(to);
}

fsk_answer plain_set_quality(const uint8_t *record, size_t record_length, uint32_t finger,
                             uint32_t number, uint32_t segment, const uint8_t *values,
                             size_t values_length, uint8_t *out, size_t out_length)
{
    const plain_name view = {finger, number};
    const plain_block lent = {values, values_length};
    plain_found found;
    view_cells cells;
    fsk_answer answer = plain_find_typed(record, record_length, view, segment, LOCAL_QUALITY,
                                         &found);
    if (answer.number != 0)
        return answer;
    if (!are_values(lent, &found.in.view, &cells))
        return plain_refused(BAD_QUALITY);
    answer = plain_put_up_to_payload(&out, out_length, &found, payload_length(cells));
    if (answer.number == 0)
        plain_put_behind(put_payload(out, values, cells), &found.in,
                         plain_block_end(found.payload));
    return answer;
}
