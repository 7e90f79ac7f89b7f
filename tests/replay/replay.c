/* Replays a file of cases on the library and compares every answer.
 *
 * Each case runs with every lent slice ending at a guard page, and again with every
 * slice starting at one (guard.h). So a stray read or write is caught as a fault, and
 * every byte of an output is compared with what was written or with its fill.
 *
 *     cc -std=c11 -Wall -Wextra -Werror -I host tests/replay/replay.c \
 *        libhost.a -o replay && ./replay FILE
 *
 * An accepted reading or writing is run back too: of a record by its sheet, of local
 * quality by its values, of pores by their numbers, of a run by its low bytes, and of a
 * card's object by its record. The orders of a list of pairs are given singly too, and
 * the lines of an accepted removal are removed in two calls. A record that is read, and
 * one that an order leaves, is checked by the enrolment rules.
 */
#define _DEFAULT_SOURCE
#include <inttypes.h>
#include <stdint.h>
#include <stdio.h>
#include <string.h>

#include "card_back.h"
#include "case_file.h"
#include "compare.h"
#include "fsk.h"
#include "guard.h"
#include "library.h"
#include "rules_same.h"

enum { MOST_LINES = 1024 };
enum { LINE_BYTES = 2, ORDER_BYTES = 6, PORE_BYTES = 4, RUN_BYTES = 2 };

/* How many cases were run in each other way too. */
typedef struct { uint32_t back, singly, in_two, checked; } counts;

/* Line numbers as a removal takes them. */
typedef struct { uint8_t bytes[MOST_LINES * LINE_BYTES]; size_t length; } line_list;

/* The way back of an accepted case: the call that undoes it, on what was written,
 * must give the lent bytes back, in just the room that they take. 0: there is none. */
static unsigned call_back(const test_case *c)
{
    static const unsigned back[CALLS] = {[READ] = WRITE, [WRITE] = READ,
                                         [QUALITY] = SET_QUALITY, [SET_QUALITY] = QUALITY,
                                         [PORES] = SET_PORES, [SET_PORES] = PORES,
                                         [LOW_BYTES] = FROM_LOW_BYTES,
                                         [FROM_LOW_BYTES] = LOW_BYTES};
    return c->number == 0 ? back[c->call] : 0;
}

/* Values or pores that were read are written to the record they come from; those that
 * were written are read from the new record. Of pores and runs the length counts numbers. */
static test_case way_back(const test_case *c)
{
    test_case back = {.call = call_back(c), .numbers_passed = c->numbers_passed, .fill = c->fill};
    memcpy(back.numbers, c->numbers, sizeof back.numbers);
    back.inputs_lent = calls[back.call].inputs;
    back.inputs[0] = c->written;
    back.written = c->inputs[c->inputs_lent - 1];
    if (back.call == SET_QUALITY || back.call == SET_PORES) {
        back.inputs[0] = c->inputs[0];
        back.inputs[1] = c->written;
    }
    back.out_size = back.written.length;
    back.length = back.written.length / (back.call == PORES ? PORE_BYTES
                                         : back.call == FROM_LOW_BYTES ? RUN_BYTES : 1);
    return back;
}

/* Whether a list of pairs comes to its orders: they are all obeyed, or one is refused. */
static int has_orders(const test_case *c)
{
    return c->call == PAIRS && (c->number == 0 || c->number == 15
                                || (c->number >= 18 && c->number <= 20));
}

/* One order of a list of pairs, given singly to the record that now holds: the list's
 * finger, number and line count, then the two lines. */
static test_case single_order(const test_case *c, size_t place, slice record)
{
    const uint8_t *order = c->inputs[1].bytes + ORDER_BYTES * place;
    test_case single = *c;
    single.call = order[1] == 0 ? JOIN : PART;
    single.numbers_passed = calls[single.call].numbers;
    single.inputs_lent = calls[single.call].inputs;
    single.numbers[3] = (uint64_t)order[2] << 8 | order[3];
    single.numbers[4] = (uint64_t)order[4] << 8 | order[5];
    single.inputs[0] = record;
    return single;
}

/* The orders of a list given singly, each in the same room to the record that the one
 * before left, must come to the list's bytes, or to its number at its place. */
static int singly_is_wrong(uint32_t index, const test_case *c)
{
    static uint8_t held[LONGEST_RECORD];
    slice record = c->inputs[0];
    for (size_t place = 0; place < c->inputs[1].length / ORDER_BYTES; place++) {
        test_case single = single_order(c, place, record);
        fsk_answer found = {0, 0, 0};
        lend(&single, AT_END);
        if (!guarded_call(&single, &found))
            return fault_is_wrong(index, &single, AT_END);
        if (found.number != 0 && found.number == c->number && place == c->place)
            return 0;
        if (found.number != 0 || found.length > c->out_size || found.length > sizeof held)
            return wrong(index, c, AT_END, "its order %zu given singly: number %" PRIu32,
                         place, found.number);
        memcpy(held, output_at, found.length);
        record = (slice){held, found.length};
    }
    if (c->number != 0 || record.length != c->written.length
        || memcmp(record.bytes, c->written.bytes, record.length) != 0)
        return wrong(index, c, AT_END, "its orders given singly leave another record");
    return 0;
}

/* Whether an accepted removal can be made in two calls: it has two lines or more. */
static int can_be_two(const test_case *c)
{
    return c->call == REMOVE && c->number == 0 && c->inputs[1].length >= 2 * LINE_BYTES
        && c->inputs[1].length <= sizeof ((line_list *)0)->bytes;
}

static void put_line(line_list *list, size_t line)
{
    list->bytes[list->length++] = (uint8_t)(line >> 8);
    list->bytes[list->length++] = (uint8_t)line;
}

/* A removal's lines in two lists: those that go first, which are the lower half, the
 * upper half or every other one, and the rest, by their places among the lines then left. */
static void split(uint32_t index, slice lines, line_list *first, line_list *rest)
{
    size_t count = lines.length / LINE_BYTES;
    first->length = rest->length = 0;
    for (size_t i = 0; i < count; i++) {
        size_t line = (size_t)lines.bytes[LINE_BYTES * i] << 8 | lines.bytes[LINE_BYTES * i + 1];
        int is_lower = i < count / 2;
        if (index % 3 == 0 ? is_lower : index % 3 == 1 ? !is_lower : i % 2 == 0)
            put_line(first, line);
        else
            put_line(rest, line - first->length / LINE_BYTES);
    }
}

/* Some of a removal's lines first, then the rest, in the same room: where the first call
 * is accepted, the second must give what the one call gives. If that room is too little for
 * what the first call leaves, this call is given room for any record; so only a record that
 * is too long refuses it. Those that come to the second call are counted. */
static int in_two_is_wrong(uint32_t index, const test_case *c, uint32_t *in_two)
{
    static uint8_t held[LONGEST_RECORD];
    static line_list first, rest;
    test_case call = *c;
    fsk_answer found = {0, 0, 0};
    split(index, c->inputs[1], &first, &rest);
    call.inputs[1] = (slice){first.bytes, first.length};
    for (int tries = 0; tries == 0 || (tries == 1 && found.number == 20); tries++) {
        call.out_size = tries == 0 ? c->out_size : LONGEST_RECORD;
        lend(&call, AT_END);
        if (!guarded_call(&call, &found))
            return fault_is_wrong(index, &call, AT_END);
    }
    if (found.number == 19)
        return 0;
    if (found.number != 0 || found.length > call.out_size || found.length > sizeof held)
        return wrong(index, c, AT_END, "the first of two calls for its lines: number %" PRIu32,
                     found.number);
    memcpy(held, output_at, found.length);
    call.inputs[0] = (slice){held, found.length};
    call.inputs[1] = (slice){rest.bytes, rest.length};
    call.numbers[2] -= first.length / LINE_BYTES;
    call.out_size = c->out_size;
    ++*in_two;
    return run_is_wrong(index, &call, AT_END);
}

/* Whether a case is wrong in one of the other ways to run it; those are counted. */
static int other_ways_are_wrong(uint32_t index, const test_case *c, counts *also)
{
    int is_wrong = 0;
    if (call_back(c) != 0) {
        test_case back = way_back(c);
        is_wrong |= case_is_wrong(index, &back);
        also->back++;
    }
    if (has_card_back(c)) {
        is_wrong |= card_back_is_wrong(index, c);
        also->back++;
    }
    if (has_orders(c)) {
        is_wrong |= singly_is_wrong(index, c);
        also->singly++;
    }
    if (can_be_two(c))
        is_wrong |= in_two_is_wrong(index, c, &also->in_two);
    if (has_same_rules(c)) {
        is_wrong |= rules_are_wrong(index, c);
        also->checked++;
    }
    return is_wrong;
}

int main(int argc, char **argv)
{
    uint32_t cases, wrong_cases = 0;
    counts also = {0, 0, 0, 0};
    slice rest;
    if (argc != 2)
        stop("one argument is needed, the case file");
    rest = all_cases(argv[1], &cases);
    make_rooms(rest, cases);
    catch_faults();
    for (uint32_t index = 0; index < cases; index++) {
        test_case c = take_case(&rest);
        int is_wrong = case_is_wrong(index, &c);
        is_wrong |= other_ways_are_wrong(index, &c, &also);
        wrong_cases += is_wrong;
    }
    printf("replay: %" PRIu32 " cases, %" PRIu32 " of them there and back, %" PRIu32
           " singly too, %" PRIu32 " in two too, %" PRIu32 " checked too, %" PRIu32
           " wrong\n",
           cases, also.back, also.singly, also.in_two, also.checked, wrong_cases);
    return cases > 0 && wrong_cases == 0 ? 0 : 1;
}
