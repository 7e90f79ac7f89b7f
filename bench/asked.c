/*
 * What orders ask of a benchmark record. It is looked up in the views that plain_judge finds and in
 * the index of one of them, so that every order is accepted.
 */
#include "asked.h"

/* The last pairs there are: a line and the highest of its neighbours; a line and the one below the
 * lowest of its neighbours. Without the latter it is line 0, which is not next to itself. */
static void choose_pairs(sample *of, plain_block index)
{
    const unsigned w = index.bytes[0];
    plain_reader reader = plain_reader_at(index.bytes, 8);
    for (uint32_t line = 0; line < of->ordered_lines; line++) {
        const uint32_t count = plain_take(&reader, w);
        uint32_t lowest = line;
        for (uint32_t i = 0; i < count; i++) {
            lowest -= plain_take(&reader, w);
            if (i == 0)
                of->neighbours[0] = line, of->neighbours[1] = lowest;
        }
        if (lowest > 0)
            of->strangers[0] = line, of->strangers[1] = lowest - 1;
    }
}

plain_block choose_view(sample *of)
{
    const uint8_t *header = of->record + HEADER;
    plain_block index = {NULL, 0};
    while (header < of->record + of->length) {
        const plain_name name = plain_name_at(header);
        plain_record judged;
        plain_judge(of->record, of->length, name, &judged);
        if (plain_lets_lines_go(judged.view.extended)) {
            of->ordered = name;
            of->ordered_lines = judged.view.lines;
            index = judged.view.index;
        }
        header = plain_block_end(judged.view.extended);
    }
    choose_pairs(of, index);
    return index;
}

/* Lines 0, 3, 6 and so on. */
size_t list_removal(const sample *of, uint8_t *list)
{
    const uint8_t *const start = list;
    for (uint32_t line = 0; line < of->ordered_lines; line += 3)
        list = plain_put_two_bytes(list, line);
    return (size_t)(list - start);
}

/* Steps of 0 to 63 points. */
size_t list_run(const sample *of, uint8_t *list)
{
    const uint8_t *const start = list;
    uint32_t coordinate = 0;
    for (uint32_t line = 0; line < of->lines; line++) {
        coordinate += (29 * line + 11) % 64;
        list = plain_put_two_bytes(list, coordinate);
    }
    return (size_t)(list - start);
}

/* ---- a list of pairs ---- */

/* Whether a line's list, the first number's, has a line. */
static uint8_t has[MOST_LINES][MOST_LINES];

static void find_neighbours(plain_block index, uint32_t lines)
{
    const unsigned w = index.bytes[0];
    plain_reader reader = plain_reader_at(index.bytes, 8);
    memset(has, 0, sizeof has);
    for (uint32_t line = 0; line < lines; line++) {
        uint32_t neighbour = line;
        for (uint32_t count = plain_take(&reader, w); count > 0; count--) {
            neighbour -= plain_take(&reader, w);
            has[line][neighbour] = 1;
        }
    }
}

/* The highest neighbour in a line's list, or `other` if it has none. */
static uint32_t highest(uint32_t line, uint32_t other)
{
    for (uint32_t lower = line + 1; lower-- > 0;)
        if (has[line][lower])
            return lower;
    return other;
}

/* Orders that are all accepted, spread over the lines. Each turns over what the index says of two:
 * a line and one that is at most 63 below it; for every second order, where there is one, the line
 * and its highest neighbour; for every eighth, the two of the fifth order before it. */
size_t list_pairs(const sample *of, plain_block index, uint8_t *list)
{
    const uint8_t *const start = list;
    find_neighbours(index, of->ordered_lines);
    for (uint32_t i = 0; i < ORDERS; i++) {
        const uint32_t distance = (29 * i + 11) % 64;
        uint32_t higher = of->ordered_lines - 1 - 389 * i % of->ordered_lines;
        uint32_t lower = distance < higher ? higher - distance : 0;
        if (i % 2 == 1)
            lower = highest(higher, lower);
        if (i % 8 == 7) {
            higher = plain_two_bytes(list - 5 * PAIR_ORDER + 2);
            lower = plain_two_bytes(list - 5 * PAIR_ORDER + 4);
        }
        list = plain_put_two_bytes(list, has[higher][lower]); /* 0 joins, 1 parts */
        list = plain_put_two_bytes(list, higher);
        list = plain_put_two_bytes(list, lower);
        has[higher][lower] ^= 1;
    }
    return (size_t)(list - start);
}
