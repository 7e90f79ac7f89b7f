/*
 * A list of joins and parts. Record and list are judged, then order after order, each as if given
 * to the record that the one before left; but no such record is made. A line's neighbours are those
 * of the old index, changed by the orders before; and of each number it is known how often it is in
 * the index, so that an order, which changes a few of them, says how long the record is that it
 * leaves. Only then the new record is written: lists that an order is about are put anew, all other
 * numbers of the index are put once more, and all other blocks are copied as bytes.
 */
#include "plain_orders.h"

/* An order of the list. */
typedef struct {
    plain_act act;
    uint32_t higher, lower;
} pair_order;

static inline pair_order order_at(const uint8_t *at)
{
    const uint32_t first = plain_two_bytes(at + 2), second = plain_two_bytes(at + 4);
    return (pair_order){.act = plain_two_bytes(at) == PART ? PART : JOIN,
                        .higher = first > second ? first : second,
                        .lower = first > second ? second : first};
}

/* Whether these are orders: one at least, each of them whole and a join or a part; and no more than
 * have a place that is a number of 32 bits. */
static int are_orders(const uint8_t *pairs, size_t length)
{
    if (length == 0 || length % PAIR_ORDER != 0 || length > PAIR_ORDER * (UINT64_C(1) << 32))
        return 0;
    for (const uint8_t *at = pairs; at != pairs + length; at += PAIR_ORDER)
        if (plain_two_bytes(at) > PART)
            return 0;
    return 1;
}

/* ---- the numbers of the index ---- */

/* Counts and differences alike, none of which passes the number of lines: how many there are, how
 * often each of them, and one that is no lower than the largest. */
typedef struct {
    int32_t numbers;
    int32_t times[MOST_LINES + 1];
    uint32_t most;
} number_counts;

static inline void count_number(number_counts *all, uint32_t number, int32_t times)
{
    all->numbers += times;
    all->times[number] += times;
    if (number > all->most)
        all->most = number;
}

/* The largest number is as wide as the widest. */
static plain_tally tally_of(number_counts *all)
{
    while (all->most > 0 && all->times[all->most] == 0)
        all->most--;
    return (plain_tally){.numbers = (size_t)all->numbers, .bits = all->most};
}

/* ---- the lists of the index ---- */

/* Where each line's list is in the old index, and which orders so far are about it. */
typedef struct {
    const uint8_t *index;
    unsigned w;
    uint32_t lines;
    uint32_t start[MOST_LINES + 1];   /* a list's first bit, and the bit behind the last list */
    struct {
        const uint8_t *first, *end;   /* its orders are among these; both null if it has none */
    } orders[MOST_LINES];
} index_lists;

static void find_lists(const plain_view *view, index_lists *lists, number_counts *all)
{
    const unsigned w = view->index.bytes[0];
    plain_reader reader = plain_reader_at(view->index.bytes, 8);
    uint32_t bit = 8;
    memset(all->times, 0, sizeof all->times);
    lists->index = view->index.bytes, lists->w = w, lists->lines = view->lines;
    for (uint32_t line = 0; line < view->lines; line++) {
        const uint32_t count = plain_take(&reader, w);
        lists->start[line] = bit;
        lists->orders[line].first = lists->orders[line].end = NULL;
        all->times[count]++;
        for (uint32_t i = 0; i < count; i++)
            all->times[plain_take(&reader, w)]++;
        bit += (1 + count) * w;
    }
    lists->start[view->lines] = bit;
    all->numbers = (int32_t)((bit - 8) / w);
    all->most = view->lines;
}

/* From here on the order at `at` is one of those that are about this line. */
static void add_order(index_lists *lists, uint32_t line, const uint8_t *at)
{
    if (lists->orders[line].first == NULL)
        lists->orders[line].first = at;
    lists->orders[line].end = at + PAIR_ORDER;
}

/* The neighbours that a line's list has, falling. */
typedef struct {
    uint32_t count;
    uint16_t lines[MOST_LINES];
} neighbours;

/* How many of them are above a line: the place where it stands, if it is one of them. */
static uint32_t place_of(const neighbours *list, uint32_t line)
{
    uint32_t above = 0;
    while (above < list->count && list->lines[above] > line)
        above++;
    return above;
}

static void change_neighbours(neighbours *list, pair_order by)
{
    const uint32_t place = place_of(list, by.lower);
    uint16_t *at = list->lines + place;
    if (by.act == JOIN) {
        memmove(at + 1, at, (list->count - place) * sizeof *at);
        *at = (uint16_t)by.lower;
        list->count++;
    } else {
        list->count--;
        memmove(at, at + 1, (list->count - place) * sizeof *at);
    }
}

/* The neighbours in a line's old list, changed by the orders so far. */
static void find_neighbours(const index_lists *lists, uint32_t line, neighbours *list)
{
    const uint8_t *end = lists->orders[line].end;
    plain_reader reader = plain_reader_at(lists->index, lists->start[line]);
    uint32_t neighbour = line;
    list->count = plain_take(&reader, lists->w);
    for (uint32_t i = 0; i < list->count; i++) {
        neighbour -= plain_take(&reader, lists->w);
        list->lines[i] = (uint16_t)neighbour;
    }
    for (const uint8_t *at = lists->orders[line].first; at != end; at += PAIR_ORDER) {
        const pair_order order = order_at(at);
        if (order.higher == line)
            change_neighbours(list, order);
    }
}

/* ---- one order after another ---- */

/* What an order changes among the numbers: the list's count, and the differences beside the lower
 * line, which stands or will stand at `place`. */
static void change_numbers(number_counts *all, const neighbours *list, uint32_t place,
                           pair_order by)
{
    const int32_t comes = by.act == JOIN ? 1 : -1;
    const uint32_t above = place > 0 ? list->lines[place - 1] : by.higher;
    const uint32_t behind = by.act == JOIN ? place : place + 1;
    count_number(all, list->count, -1);
    count_number(all, list->count + (uint32_t)comes, 1);
    count_number(all, above - by.lower, comes);
    if (behind < list->count) {
        count_number(all, by.lower - list->lines[behind], comes);
        count_number(all, above - list->lines[behind], -comes);
    }
}

/* 15, 18, 19 and 20 of the order that stands here; `others` counts the bytes of the record that are
 * not the index's. */
static fsk_answer judge_order(index_lists *lists, number_counts *all, const uint8_t *at,
                              size_t others, size_t room)
{
    const pair_order order = order_at(at);
    neighbours list;
    uint32_t place;
    if (order.higher >= lists->lines)
        return plain_refused(NO_LINE);
    find_neighbours(lists, order.higher, &list);
    place = place_of(&list, order.lower);
    if ((place < list.count && list.lines[place] == order.lower) != (order.act == PART))
        return plain_refused(WRONG_PAIR);
    change_numbers(all, &list, place, order);
    add_order(lists, order.higher, at);
    return plain_judge_length(others + plain_index_length(tally_of(all)), room);
}

/* ---- the new record ---- */

static void put_list(plain_writer *to, unsigned new_w, const neighbours *list, uint32_t line)
{
    uint32_t above = line;
    plain_put(to, new_w, list->count);
    for (uint32_t i = 0; i < list->count; i++) {
        plain_put(to, new_w, above - list->lines[i]);
        above = list->lines[i];
    }
}

/* Lists that no order is about and that stand side by side are put as one run. */
static uint8_t *put_lists(uint8_t *out, const index_lists *lists, unsigned new_w)
{
    const unsigned w = lists->w;
    plain_writer to = {out, 0, 0};
    uint32_t run = 8; /* the bit from which on the old index waits to be put */
    plain_reader from = plain_reader_at(lists->index, run);
    plain_put(&to, 8, new_w);
    for (uint32_t line = 0; line < lists->lines; line++) {
        neighbours list;
        if (lists->orders[line].first == NULL)
            continue;
        plain_put_numbers(&to, new_w, &from, w, (lists->start[line] - run) / w);
        find_neighbours(lists, line, &list);
        put_list(&to, new_w, &list, line);
        run = lists->start[line + 1];
        from = plain_reader_at(lists->index, run);
    }
    plain_put_numbers(&to, new_w, &from, w, (lists->start[lists->lines] - run) / w);
    return plain_put_rest(to);
}

fsk_answer plain_pairs(const uint8_t *record, size_t record_length, uint32_t finger,
                       uint32_t number, uint32_t count, const uint8_t *pairs,
                       size_t pairs_length, uint8_t *out, size_t out_length)
{
    const plain_name view = {finger, number};
    plain_record judged;
    const plain_block *old = &judged.view.index;
    index_lists lists;
    number_counts all;
    size_t others, index;
    fsk_answer refusal = plain_judge_pair_order(record, record_length, view, count, &judged);
    if (refusal.number != 0)
        return refusal;
    if (!are_orders(pairs, pairs_length))
        return plain_refused(BAD_PAIRS);
    find_lists(&judged.view, &lists, &all);
    others = record_length - old->length;
    for (size_t place = 0; place < pairs_length / PAIR_ORDER; place++) {
        refusal = judge_order(&lists, &all, pairs + PAIR_ORDER * place, others, out_length);
        if (refusal.number != 0)
            return (fsk_answer){refusal.number, (uint32_t)place, 0};
    }
    index = plain_index_length(tally_of(&all));
    out = plain_put_before(out, &judged, old->bytes - 2, others + index);
    out = plain_put_two_bytes(out, (uint32_t)index);
    out = put_lists(out, &lists, plain_least_width(tally_of(&all)));
    plain_put_behind(out, &judged, plain_block_end(*old));
    return plain_accepted(others + index);
}
