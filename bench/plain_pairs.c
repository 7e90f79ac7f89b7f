/*
 * A join or a part of two lines. Record and order are judged, then the new index is measured, which
 * says how long the new record is, and only then it is written. But for one list the numbers of the
 * index are put once more, and all other blocks are copied as bytes.
 */
#include "plain_orders.h"

/* What a pair order changes among the numbers of an index: one list's count, and the differences
 * beside the neighbour that comes or goes. All numbers before, between and behind are kept. */
typedef struct {
    size_t before;     /* numbers before the count */
    uint32_t count;    /* the new one */
    uint32_t between;  /* differences between the count and those that change */
    uint32_t dropped;  /* how many differences go there */
    uint32_t added;    /* how many come instead, and these */
    uint32_t differences[2];
    size_t behind;     /* numbers behind them */
} change;

static void tally_numbers(plain_tally *all, plain_reader *reader, unsigned w, uint32_t count)
{
    for (; count > 0; count--)
        plain_tally_number(all, plain_take(reader, w));
}

static void tally_lists(plain_tally *all, plain_reader *reader, unsigned w, uint32_t lists)
{
    for (; lists > 0; lists--) {
        const uint32_t count = plain_take(reader, w);
        plain_tally_number(all, count);
        tally_numbers(all, reader, w, count);
    }
}

/* Changes the list of the line `higher`, which is the next one, by the neighbour `lower`, and
 * tallies its numbers; 0 if the order does not fit it. */
static int change_list(plain_tally *all, plain_reader *reader, unsigned w, plain_act act,
                       uint32_t higher, uint32_t lower, change *to)
{
    const uint32_t count = plain_take(reader, w);
    uint32_t above = higher, neighbour = higher;
    uint32_t left = count; /* in the end the neighbours that are not above `lower` */
    for (; left > 0; left--) {
        const uint32_t difference = plain_take(reader, w);
        neighbour = above - difference;
        if (neighbour <= lower)
            break;
        plain_tally_number(all, difference);
        above = neighbour;
    }
    if ((left > 0 && neighbour == lower) != (act == PART))
        return 0;
    to->between = count - left;
    to->differences[0] = above - lower;
    if (act == JOIN) {
        to->count = count + 1;
        to->dropped = left > 0 ? 1 : 0;
        to->differences[1] = lower - neighbour; /* if one is dropped: from lower to what follows */
    } else {
        to->count = count - 1;
        to->dropped = left > 1 ? 2 : 1;
        if (left > 1)
            to->differences[0] += plain_take(reader, w);
    }
    to->added = to->dropped + to->count - count;
    plain_tally_number(all, to->count);
    for (uint32_t i = 0; i < to->added; i++)
        plain_tally_number(all, to->differences[i]);
    tally_numbers(all, reader, w, left - to->dropped);
    return 1;
}

/* The same for the whole index of a view. */
static int change_index(plain_tally *all, const plain_view *view, plain_act act, uint32_t higher,
                        uint32_t lower, change *to)
{
    const unsigned w = view->index.bytes[0];
    plain_reader reader = plain_reader_at(view->index.bytes, 8);
    tally_lists(all, &reader, w, higher);
    to->before = all->numbers;
    if (!change_list(all, &reader, w, act, higher, lower, to))
        return 0;
    tally_lists(all, &reader, w, view->lines - higher - 1);
    to->behind = all->numbers - to->before - 1 - to->between - to->added;
    return 1;
}

static uint8_t *put_changed_index(uint8_t *out, plain_block index, const change *by, unsigned new_w)
{
    const unsigned w = index.bytes[0];
    plain_reader from = plain_reader_at(index.bytes, 8);
    plain_writer to = {out, 0, 0};
    plain_put(&to, 8, new_w);
    plain_put_numbers(&to, new_w, &from, w, by->before);
    plain_pass(&from, w);
    plain_put(&to, new_w, by->count);
    plain_put_numbers(&to, new_w, &from, w, by->between);
    plain_pass(&from, (size_t)by->dropped * w);
    for (uint32_t i = 0; i < by->added; i++)
        plain_put(&to, new_w, by->differences[i]);
    plain_put_numbers(&to, new_w, &from, w, by->behind);
    return plain_put_rest(to);
}

static fsk_answer change_pair(plain_act act, const uint8_t *record, size_t record_length,
                              plain_name view, uint32_t count, uint32_t first, uint32_t second,
                              uint8_t *out, size_t out_length)
{
    const uint32_t higher = first > second ? first : second;
    const uint32_t lower = first > second ? second : first;
    plain_record judged;
    const plain_block *old = &judged.view.index;
    change by;
    plain_tally all = {0, 0};
    size_t index, length;
    fsk_answer refusal = plain_judge_pair_order(record, record_length, view, count, &judged);
    if (refusal.number != 0)
        return refusal;
    if (higher >= count)
        return plain_refused(NO_LINE);
    if (!change_index(&all, &judged.view, act, higher, lower, &by))
        return plain_refused(WRONG_PAIR);
    index = plain_index_length(all);
    length = record_length - old->length + index;
    if ((refusal = plain_judge_length(length, out_length)).number != 0)
        return refusal;
    out = plain_put_before(out, &judged, old->bytes - 2, length);
    out = plain_put_two_bytes(out, (uint32_t)index);
    out = put_changed_index(out, *old, &by, plain_least_width(all));
    plain_put_behind(out, &judged, plain_block_end(*old));
    return plain_accepted(length);
}

fsk_answer plain_join(const uint8_t *record, size_t record_length, uint32_t finger,
                      uint32_t number, uint32_t count, uint32_t first, uint32_t second,
                      uint8_t *out, size_t out_length)
{
    const plain_name view = {finger, number};
    return change_pair(JOIN, record, record_length, view, count, first, second, out, out_length);
}

fsk_answer plain_part(const uint8_t *record, size_t record_length, uint32_t finger,
                      uint32_t number, uint32_t count, uint32_t first, uint32_t second,
                      uint8_t *out, size_t out_length)
{
    const plain_name view = {finger, number};
    return change_pair(PART, record, record_length, view, count, first, second, out, out_length);
}
