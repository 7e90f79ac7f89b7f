/* The way back of a card's object: there by the other call, and back by the same.
 *
 * The record that was read is written, and what comes of it is read again; the object
 * that was written is read, and what comes of it is written again. Each time the same
 * bytes must be there in the end. An object that held 90 alone must be what is written.
 *
 * replay.c is the only program with this file, so its functions stand here whole.
 */
#ifndef CARD_BACK_H
#define CARD_BACK_H

#include <inttypes.h>
#include <stdint.h>
#include <string.h>

#include "case_file.h"
#include "compare.h"
#include "fsk.h"
#include "guard.h"
#include "library.h"

enum { LONGEST_RECORD = 32768 };
/* Of a record with one view, how many bytes more it has than object 90's value. */
enum { MORE_IN_RECORD = 30 };

static int has_card_back(const test_case *c)
{
    return c->number == 0 && (c->call == CARD_READ || c->call == CARD_WRITE);
}

/* Reading at the case's size, or writing of the view (0, 0), in room for any record. */
static test_case card_call(const test_case *c, unsigned call, slice input)
{
    test_case made = {.call = call, .numbers = {c->numbers[0]}, .fill = c->fill};
    made.numbers_passed = calls[call].numbers;
    made.inputs_lent = calls[call].inputs;
    made.inputs[0] = input;
    made.out_size = LONGEST_RECORD;
    return made;
}

/* The bytes of an object with so many bytes of tag and of value: its length takes one
 * byte, two above 127 and three above 255. */
static size_t wrapped(size_t tag, size_t value)
{
    return tag + (value > 255 ? 3 : value > 127 ? 2 : 1) + value;
}

/* The bytes of the object that holds a record's one view and nothing else. */
static size_t alone(size_t record)
{
    return wrapped(2, wrapped(1, record - MORE_IN_RECORD));
}

/* Whether there and back gives what the case wrote. On the way the object must be as
 * long as its record asks for; where it is as long as the one that was read, this held
 * 90 alone, and it must be the same. */
static int card_back_is_wrong(uint32_t index, const test_case *c)
{
    static uint8_t held[LONGEST_RECORD];
    int is_read = c->call == CARD_READ;
    test_case there = card_call(c, is_read ? CARD_WRITE : CARD_READ, c->written), back;
    fsk_answer found = {0, 0, 0};
    lend(&there, AT_END);
    if (!guarded_call(&there, &found))
        return fault_is_wrong(index, &there, AT_END);
    if (found.number != 0 || found.length > sizeof held
        || (is_read ? found.length != alone(c->written.length)
                    : alone(found.length) != c->written.length))
        return wrong(index, &there, AT_END, "on the way back: number %" PRIu32 ", length %zu",
                     found.number, found.length);
    memcpy(held, output_at, found.length);
    if (is_read && found.length == c->inputs[0].length
        && memcmp(held, c->inputs[0].bytes, found.length) != 0)
        return wrong(index, &there, AT_END, "the object that was read is not written again");
    back = card_call(c, c->call, (slice){held, found.length});
    back.written = c->written;
    back.out_size = back.length = c->written.length;
    return case_is_wrong(index, &back);
}

#endif
