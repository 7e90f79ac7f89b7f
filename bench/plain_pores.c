/*
 * The sweat pores of a view's lines: a payload of them as numbers, and the record with that payload
 * rewritten. Both judge the whole record first. A distance that is to be written may take two
 * thousand million elements, so that they are counted, and the bytes judged, before one is put.
 */
#include "plain_pores.h"
#include "plain_segments.h"

/* What the numbers start with: resolution and e, which have four bytes each, as all of them. */
enum { NUMBER = 4, NUMBERS_HEADER = 2 };

enum { MOST_RESOLUTION = 65535 };

/* ---- a payload as numbers ---- */

/* Puts a line's count before its distances, which end here; a null `line` is none. */
static void put_count(uint8_t *line, const uint8_t *end)
{
    if (line != NULL)
        plain_put_four_bytes(line, (uint32_t)((end - line) / NUMBER - 1));
}

static void put_numbers(uint8_t *out, plain_block payload, const plain_judged_pores *pores)
{
    const unsigned e = pores->e;
    const uint32_t no_pore = plain_no_pore(e);
    plain_reader reader = plain_reader_at(payload.bytes, 8 * PORES_HEADER);
    uint8_t *line = NULL; /* where the count of its distances belongs */
    uint32_t passed = 0;  /* of a distance */
    out = plain_put_four_bytes(out, plain_two_bytes(payload.bytes));
    out = plain_put_four_bytes(out, e);
    for (size_t left = pores->elements; left > 0; left--) {
        const uint32_t element = plain_take(&reader, e);
        if (element == 0) {
            put_count(line, out);
            line = out;
            out += NUMBER;
        } else if (element == no_pore) {
            passed += no_pore - 1;
        } else {
            out = plain_put_four_bytes(out, passed + element);
            passed = 0;
        }
    }
    put_count(line, out);
}

fsk_answer plain_pores(const uint8_t *record, size_t record_length, uint32_t finger,
                       uint32_t number, uint32_t segment, uint8_t *values, size_t values_length)
{
    const plain_name view = {finger, number};
    plain_found found;
    plain_judged_pores pores;
    size_t numbers;
    const fsk_answer refusal = plain_find_typed(record, record_length, view, segment, SWEAT_PORES,
                                                &found);
    if (refusal.number != 0)
        return refusal;
    if (!plain_judge_pores(found.payload, found.in.view.lines, NULL, &pores))
        return plain_refused(BAD_PORES);
    numbers = NUMBERS_HEADER + found.in.view.lines + pores.distances;
    if (numbers > values_length / NUMBER)
        return plain_refused(NO_ROOM);
    put_numbers(values, found.payload, &pores);
    return plain_accepted(numbers);
}

/* ---- numbers as a payload ---- */

/* What numbers that are to be written come to. */
typedef struct {
    unsigned e;
    size_t elements; /* at most ENOUGH */
} new_pores;

/* More elements than a record can have, and few enough to go on counting. */
enum { ENOUGH = 8 * LARGEST_RECORD };

/* Adds up the elements of so many distances; 0 if one of them is 0. In 64 bits, more than four
 * thousand million distances with half as many elements each have room. */
static int add_distances(const uint8_t *at, uint32_t count, new_pores *pores)
{
    const uint32_t longest = plain_no_pore(pores->e) - 1;
    uint64_t elements = pores->elements;
    for (; count > 0; count--) {
        const uint32_t distance = plain_four_bytes(at);
        if (distance == 0)
            return 0;
        elements += distance <= longest ? 1 : (distance - 1) / longest + 1;
        at += NUMBER;
    }
    pores->elements = elements < ENOUGH ? (size_t)elements : ENOUGH;
    return 1;
}

/* Whether the numbers keep the rules in a view of so many lines. */
static int are_numbers(plain_block values, uint32_t lines, new_pores *pores)
{
    const uint8_t *at = values.bytes;
    size_t left = values.length / NUMBER; /* numbers */
    if (values.length % NUMBER != 0 || left < NUMBERS_HEADER)
        return 0;
    pores->e = plain_four_bytes(at + NUMBER);
    if (plain_four_bytes(at) > MOST_RESOLUTION || pores->e < LEAST_ELEMENT
        || pores->e > MOST_ELEMENT)
        return 0;
    at += NUMBERS_HEADER * NUMBER;
    left -= NUMBERS_HEADER;
    pores->elements = lines;
    for (; lines > 0; lines--) {
        uint32_t count;
        if (left < 1)
            return 0;
        count = plain_four_bytes(at);
        at += NUMBER;
        left--;
        if (count > left || !add_distances(at, count, pores))
            return 0;
        at += (size_t)count * NUMBER;
        left -= count;
    }
    return left == 0;
}

/* The payload of these numbers, which keep the rules; gives the place behind it. */
static uint8_t *put_payload(uint8_t *out, const uint8_t *values, uint32_t lines, unsigned e)
{
    const uint32_t no_pore = plain_no_pore(e), longest = no_pore - 1;
    const uint8_t *at = values + NUMBERS_HEADER * NUMBER;
    plain_writer to = {plain_put_two_bytes(out, plain_four_bytes(values)), 0, 0};
    plain_put(&to, 8, e);
    for (; lines > 0; lines--) {
        uint32_t count = plain_four_bytes(at);
        plain_put(&to, e, 0);
        for (at += NUMBER; count > 0; count--, at += NUMBER) {
            uint32_t distance = plain_four_bytes(at);
            for (; distance > longest; distance -= longest)
                plain_put(&to, e, no_pore);
            plain_put(&to, e, distance);
        }
    }
    return plain_put_rest(to);
}

fsk_answer plain_set_pores(const uint8_t *record, size_t record_length, uint32_t finger,
                           uint32_t number, uint32_t segment, const uint8_t *values,
                           size_t values_length, uint8_t *out, size_t out_length)
{
    const plain_name view = {finger, number};
    const plain_block lent = {values, values_length};
    plain_found found;
    new_pores pores;
    fsk_answer answer = plain_find_typed(record, record_length, view, segment, SWEAT_PORES, &found);
    if (answer.number != 0)
        return answer;
    if (!are_numbers(lent, found.in.view.lines, &pores))
        return plain_refused(BAD_PORES);
    answer = plain_put_up_to_payload(&out, out_length, &found,
                                     plain_pores_length(pores.e, pores.elements));
    if (answer.number == 0)
        plain_put_behind(put_payload(out, values, found.in.view.lines, pores.e), &found.in,
                         plain_block_end(found.payload));
    return answer;
}
