/* The runs of a case, and what is wrong with them.
 *
 * The call is made with its slices lent between guards (guard.h). Number, place, length
 * and every byte of the output are compared, those that must stay too. The first wrong
 * ones are printed.
 *
 * replay.c is the only program with this file, so its functions stand here whole.
 */
#ifndef COMPARE_H
#define COMPARE_H

#include <inttypes.h>
#include <stdarg.h>
#include <stdint.h>
#include <stdio.h>

#include "case_file.h"
#include "fsk.h"
#include "guard.h"
#include "library.h"

enum { MOST_SHOWN = 20 };

static uint32_t shown;

static int wrong(uint32_t index, const test_case *c, placing run, const char *how, ...)
{
    va_list values;
    if (shown++ >= MOST_SHOWN)
        return 1;
    printf("case %" PRIu32 " %s (", index, calls[c->call].name);
    for (unsigned i = 0; i < c->numbers_passed; i++)
        printf("number %" PRIu64 ", ", c->numbers[i]);
    for (unsigned i = 0; i < c->inputs_lent; i++)
        printf("%zu bytes in, ", c->inputs[i].length);
    printf("%zu bytes out; %s): ", c->out_size, placings[run]);
    va_start(values, how);
    vprintf(how, values);
    va_end(values);
    printf("\n");
    return 1;
}

static int fault_is_wrong(uint32_t index, const test_case *c, placing run)
{
    uintptr_t address = (uintptr_t)fault_address;
    if (fault_signal != SIGSEGV && fault_signal != SIGBUS)
        return wrong(index, c, run, "the call ended with signal %d", (int)fault_signal);
    for (unsigned k = 0; k <= c->inputs_lent; k++) {
        int out = k == c->inputs_lent;
        room r = out ? output_room : input_rooms[k];
        const uint8_t *lent_at = out ? output_at : inputs_at[k];
        uintptr_t start = (uintptr_t)r.start;
        if (lent_at != NULL && address >= start - GUARD && address < start + r.size + GUARD)
            return wrong(index, c, run, "fault at byte %" PRIdPTR " of %s %u",
                         (intptr_t)(address - (uintptr_t)lent_at),
                         out ? "the output, slice" : "input slice", k);
    }
    return wrong(index, c, run, "fault at address 0x%" PRIxPTR, address);
}

static int run_is_wrong(uint32_t index, const test_case *c, placing run)
{
    fsk_answer found = {0, 0, 0};
    lend(c, run);
    if (!guarded_call(c, &found))
        return fault_is_wrong(index, c, run);
    if (found.number != c->number || found.place != c->place || found.length != c->length)
        return wrong(index, c, run,
                     "expected number %" PRIu32 " place %" PRIu32 " length %" PRIu64
                     ", found number %" PRIu32 " place %" PRIu32 " length %zu",
                     c->number, c->place, c->length,
                     found.number, found.place, found.length);
    for (size_t i = 0; i < c->out_size; i++) {
        int inside = i < c->written.length;
        uint8_t expected = inside ? c->written.bytes[i] : c->fill;
        if (output_at[i] != expected)
            return wrong(index, c, run, "output byte %zu (%s): expected %02x, found %02x",
                         i, inside ? "written" : "must stay", expected, output_at[i]);
    }
    return 0;
}

/* A case runs with its slices at either guard, and empty ones as null too. */
static int case_is_wrong(uint32_t index, const test_case *c)
{
    int has_empty = c->out_size == 0;
    for (unsigned k = 0; k < c->inputs_lent; k++)
        has_empty |= c->inputs[k].length == 0;
    return run_is_wrong(index, c, AT_END) || run_is_wrong(index, c, AT_START)
        || (has_empty && run_is_wrong(index, c, EMPTY_AS_NULL));
}

#endif
