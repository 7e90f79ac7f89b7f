/* The library's calls: each case of a case file as the call that it is.
 *
 * The slices are lent as guard.h placed them, and a fault inside the call is caught.
 *
 * replay.c is the only program with this file, so its functions stand here whole.
 */
#ifndef LIBRARY_H
#define LIBRARY_H

#include <stdint.h>

#include "case_file.h"
#include "fsk.h"
#include "guard.h"

/* What the library answers to the case's call. Where it names a view, the first two
 * numbers are its finger position and its number; but of card_write the first is the
 * size, and these two follow, while the call takes the record between them. */
static fsk_answer library(const test_case *c)
{
    const uint8_t *in = inputs_at[0], *also = inputs_at[1];
    const size_t in_len = c->inputs[0].length, also_len = c->inputs[1].length;
    uint8_t *out = output_at;
    const size_t out_len = c->out_size;
    uint32_t n[MOST_NUMBERS];
    fsk_held held;
    for (unsigned i = 0; i < MOST_NUMBERS; i++)
        n[i] = (uint32_t)c->numbers[i];
    switch (c->call) {
    case READ:
        return fsk_read(in, in_len, out, out_len);
    case WRITE:
        return fsk_write(in, in_len, out, out_len);
    case TRAIL:
        return fsk_trail(in, in_len, n[0], n[1], n[2], out, out_len);
    case SEGMENT:
        return fsk_segment(in, in_len, n[0], n[1], n[2]);
    case REMOVE:
        return fsk_remove(in, in_len, n[0], n[1], n[2], also, also_len, out, out_len);
    case JOIN:
        return fsk_join(in, in_len, n[0], n[1], n[2], n[3], n[4], out, out_len);
    case PART:
        return fsk_part(in, in_len, n[0], n[1], n[2], n[3], n[4], out, out_len);
    case HOLDS:
        held = fsk_holds(in, in_len, also, also_len, n[0], (size_t)c->numbers[1]);
        return (fsk_answer){held.second, 0, held.length};
    case QUALITY:
        return fsk_quality(in, in_len, n[0], n[1], n[2], out, out_len);
    case SET_QUALITY:
        return fsk_set_quality(in, in_len, n[0], n[1], n[2], also, also_len, out, out_len);
    case PAIRS:
        return fsk_pairs(in, in_len, n[0], n[1], n[2], also, also_len, out, out_len);
    case PORES:
        return fsk_pores(in, in_len, n[0], n[1], n[2], out, out_len);
    case SET_PORES:
        return fsk_set_pores(in, in_len, n[0], n[1], n[2], also, also_len, out, out_len);
    case CARD_READ:
        return fsk_card_read(n[0], in, in_len, out, out_len);
    case CARD_WRITE:
        return fsk_card_write(n[0], in, in_len, n[1], n[2], out, out_len);
    case LOW_BYTES:
        return fsk_low_bytes(in, in_len, out, out_len);
    case FROM_LOW_BYTES:
        return fsk_from_low_bytes(in, in_len, out, out_len);
    case CHECK:
        return fsk_check(n[0], in, in_len);
    }
    stop("a case has an unknown call");
}

/* Makes the case's call; 0 if it ended with a fault. */
static int guarded_call(const test_case *c, fsk_answer *answer)
{
    if (sigsetjmp(after_fault, 0) != 0)
        return 0;
    in_call = 1;
    *answer = library(c);
    in_call = 0;
    return 1;
}

#endif
