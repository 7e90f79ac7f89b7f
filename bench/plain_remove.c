/*
 * A removal of lines. Record and order are judged, then the blocks that change are measured, which
 * says how long the new record is, and only then it is written. Lines that stay are copied as runs
 * of bits, all blocks that stay as bytes.
 */
#include "plain_remove.h"

static inline uint32_t ones(uint32_t bits)
{
    bits -= bits >> 1 & 0x55555555;
    bits = (bits & 0x33333333) + (bits >> 2 & 0x33333333);
    return ((bits + (bits >> 4)) & 0x0F0F0F0F) * 0x01010101 >> 24;
}

/* How many lines stay below this one: its new number, if it stays itself. */
static inline uint32_t new_number(const plain_survivors *kept, uint32_t line)
{
    const uint32_t lower = (1u << line % WORD) - 1;
    return kept->below[line / WORD] + ones(kept->stays[line / WORD] & lower);
}

/* Takes the listed lines out; 0 if the list is not one of a removal in a view of `count` lines. */
static int take_out(plain_survivors *kept, const uint8_t *lines, size_t length, uint32_t count)
{
    uint32_t least = 0, below = 0; /* least: the least number that can come next */
    if (length == 0 || length % 2 != 0)
        return 0;
    memset(kept->stays, 0xFF, sizeof kept->stays);
    for (const uint8_t *at = lines; at < lines + length; at += 2) {
        const uint32_t line = plain_two_bytes(at);
        if (line < least || line >= count)
            return 0;
        kept->stays[line / WORD] &= ~(1u << line % WORD);
        least = line + 1;
    }
    for (uint32_t word = 0; word * WORD < count; word++) {
        kept->below[word] = (uint16_t)below;
        below += ones(kept->stays[word]);
    }
    return 1;
}

static size_t kept_skeleton_length(const plain_record *record, const plain_survivors *kept)
{
    const uint8_t *skeleton = record->view.skeleton.bytes;
    size_t bit = 0, kept_bits = 0;
    for (uint32_t line = 0; line < record->view.lines; line++) {
        const size_t bits = plain_line_bits(skeleton, bit, record->end_bits, record->k);
        if (plain_stays(kept, line))
            kept_bits += bits;
        bit += bits;
    }
    return plain_whole_bytes(kept_bits);
}

static uint8_t *put_kept_skeleton(uint8_t *out, const plain_record *record,
                                  const plain_survivors *kept)
{
    const uint8_t *skeleton = record->view.skeleton.bytes;
    plain_moving lines = {plain_reader_at(skeleton, 0), {out, 0, 0}, 0};
    size_t bit = 0;
    for (uint32_t line = 0; line < record->view.lines; line++) {
        const size_t bits = plain_line_bits(skeleton, bit, record->end_bits, record->k);
        plain_move(&lines, bits, plain_stays(kept, line));
        bit += bits;
    }
    return plain_moved(&lines);
}

/* How many of a line's neighbours stay. */
static inline uint32_t kept_neighbours(plain_reader list, unsigned w, uint32_t count, uint32_t line,
                                       const plain_survivors *kept)
{
    uint32_t neighbour = line, staying = 0;
    for (uint32_t i = 0; i < count; i++) {
        neighbour -= plain_take(&list, w);
        staying += (uint32_t)plain_stays(kept, neighbour);
    }
    return staying;
}

/* The numbers of the index that is left. */
static plain_tally tally_kept_index(const plain_view *view, const plain_survivors *kept)
{
    const unsigned w = view->index.bytes[0];
    plain_reader reader = plain_reader_at(view->index.bytes, 8);
    plain_tally all = {0, 0};
    for (uint32_t line = 0; line < view->lines; line++) {
        const uint32_t count = plain_take(&reader, w);
        uint32_t neighbour = line, before = new_number(kept, line), staying = 0;
        if (!plain_stays(kept, line)) {
            plain_pass(&reader, (size_t)count * w);
            continue;
        }
        for (uint32_t i = 0; i < count; i++) {
            neighbour -= plain_take(&reader, w);
            if (plain_stays(kept, neighbour)) {
                const uint32_t number = new_number(kept, neighbour);
                plain_tally_number(&all, before - number);
                before = number;
                staying++;
            }
        }
        plain_tally_number(&all, staying);
    }
    return all;
}

static uint8_t *put_kept_index(uint8_t *out, const plain_view *view, const plain_survivors *kept,
                               unsigned new_w)
{
    const unsigned w = view->index.bytes[0];
    plain_reader reader = plain_reader_at(view->index.bytes, 8);
    plain_writer to = {out, 0, 0};
    plain_put(&to, 8, new_w);
    for (uint32_t line = 0; line < view->lines; line++) {
        const uint32_t count = plain_take(&reader, w);
        uint32_t neighbour = line, before = new_number(kept, line);
        if (!plain_stays(kept, line)) {
            plain_pass(&reader, (size_t)count * w);
            continue;
        }
        plain_put(&to, new_w, kept_neighbours(reader, w, count, line, kept));
        for (uint32_t i = 0; i < count; i++) {
            neighbour -= plain_take(&reader, w);
            if (plain_stays(kept, neighbour)) {
                const uint32_t number = new_number(kept, neighbour);
                plain_put(&to, new_w, before - number);
                before = number;
            }
        }
    }
    return plain_put_rest(to);
}

fsk_answer plain_remove(const uint8_t *record, size_t record_length, uint32_t finger,
                        uint32_t number, uint32_t count, const uint8_t *lines,
                        size_t lines_length, uint8_t *out, size_t out_length)
{
    const plain_name view = {finger, number};
    plain_record judged;
    const plain_view *old = &judged.view;
    plain_survivors kept;
    plain_tally all = {0, 0};
    size_t skeleton, index = 0, extended, length;
    fsk_answer refusal = plain_judge_order(record, record_length, view, count, &judged);
    if (refusal.number != 0)
        return refusal;
    if (!take_out(&kept, lines, lines_length, count))
        return plain_refused(NO_LINE);
    if ((refusal = plain_judge_kept_segments(old, &kept, &extended)).number != 0)
        return refusal;
    skeleton = kept_skeleton_length(&judged, &kept);
    if (old->index.length > 0) {
        all = tally_kept_index(old, &kept);
        index = plain_index_length(all);
    }
    length = record_length - old->skeleton.length - old->index.length - old->extended.length;
    length += skeleton + index + extended;
    if ((refusal = plain_judge_length(length, out_length)).number != 0)
        return refusal;
    out = plain_put_before(out, &judged, old->skeleton.bytes - 2, length);
    out = plain_put_two_bytes(out, (uint32_t)skeleton);
    out = put_kept_skeleton(out, &judged, &kept);
    out = plain_put_two_bytes(out, (uint32_t)index);
    if (index > 0)
        out = put_kept_index(out, old, &kept, plain_least_width(all));
    out = plain_put_two_bytes(out, (uint32_t)extended);
    out = plain_put_kept_segments(out, old, &kept);
    plain_put_behind(out, &judged, plain_block_end(old->extended));
    return plain_accepted(length);
}
