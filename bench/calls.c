/*
 * The calls with their arguments, and the table of them. A further call is one BOTH and one row;
 * one of several lengths has a BOTH_IN and a row for each.
 */
#include "calls.h"

#include "plain.h"

#define SIDE(side, answer)                                                                        \
    static fsk_answer side(const sample *on, uint8_t *out, size_t room)                           \
    {                                                                                             \
        (void)out, (void)room;                                                                    \
        return answer;                                                                            \
    }

/* All sides of one call. `row` is the call's name, or one of several for a call that has several
 * rows; `to_answer` makes an answer of what the call gives, where that is something else.
 * The empty side calls `nothing` under a name that has the call's own type. So its code is that of
 * the library's side but for the address called, and all that differs in their use of the stack is
 * the callee's. */
#define SIDES(row, name, to_answer, ...)                                                          \
    extern __typeof__(fsk_##name) nothing_##name __asm__("nothing");                              \
    SIDE(library_##row, to_answer(fsk_##name(__VA_ARGS__)))                                       \
    SIDE(by_hand_##row, to_answer(plain_##name(__VA_ARGS__)))                                     \
    SIDE(empty_##row, to_answer(nothing_##name(__VA_ARGS__)))
#define BOTH_IN(row, name, ...) SIDES(row, name, , __VA_ARGS__)
#define BOTH(name, ...) BOTH_IN(name, name, __VA_ARGS__)

/* A view's name as two arguments. */
#define NAME(view) (view).finger, (view).number

BOTH(read, on->record, on->length, out, room)
BOTH(write, on->sheet, on->sheet_length, out, room)
BOTH(check, 2, on->record, on->length)
BOTH(trail, on->record, on->length, NAME(on->view), on->lines - 1, out, room)
BOTH(segment, on->record, on->length, NAME(on->with_segments), on->segments - 1)
BOTH(quality, on->record, on->length, NAME(on->with_segments), on->segments - 1, out, room)
BOTH(set_quality, on->record, on->length, NAME(on->with_segments), on->segments - 1, on->values,
     on->values_length, out, room)
BOTH(pores, on->record, on->length, NAME(on->with_segments), on->segments - 1, out, room)
BOTH(set_pores, on->record, on->length, NAME(on->with_segments), on->segments - 1, on->pores,
     on->pores_length, out, room)
BOTH(card_read, on->size, on->object, on->object_length, out, room)
BOTH(card_write, on->size, on->record, on->length, NAME(on->view), out, room)
BOTH(low_bytes, on->run, on->run_length, out, room)
BOTH(from_low_bytes, on->low_bytes, on->low_bytes_length, out, room)
BOTH(remove, on->record, on->length, NAME(on->ordered), on->ordered_lines, on->removed,
     on->removed_length, out, room)
BOTH(join, on->record, on->length, NAME(on->ordered), on->ordered_lines, on->strangers[0],
     on->strangers[1], out, room)
BOTH(part, on->record, on->length, NAME(on->ordered), on->ordered_lines, on->neighbours[0],
     on->neighbours[1], out, room)

/* The first so many orders of the sample's list. */
#define PAIRS(orders)                                                                             \
    BOTH_IN(pairs_##orders, pairs, on->record, on->length, NAME(on->ordered), on->ordered_lines,  \
            on->pairs, PAIR_ORDER * (orders), out, room)

PAIRS(1)
PAIRS(40)
PAIRS(400)

/* Which record holds is never refused; the answer's place says whether it is the second. */
static fsk_answer of_held(fsk_held held)
{
    return (fsk_answer){0, held.second, held.length};
}

/* After an order that wrote as many bytes as the record has. */
SIDES(holds, holds, of_held, on->record, on->length, out, room, 0, on->length)

#define ROW(name, row, needs, untimed)                                                            \
    {name, library_##row, by_hand_##row, empty_##row, needs, untimed}

const row rows[] = {
    ROW("read", read, NOTHING, 0),
    ROW("write", write, NOTHING, 0),
    ROW("check", check, NOTHING, 0),
    ROW("trail", trail, NOTHING, 0),
    ROW("segment", segment, A_SEGMENT, 0),
    ROW("quality", quality, QUALITY, 0),
    ROW("set_quality", set_quality, QUALITY, 0),
    ROW("pores", pores, PORES, 0),
    ROW("set_pores", set_pores, PORES, 0),
    ROW("card_read", card_read, AN_OBJECT, 0),
    ROW("card_write", card_write, AN_OBJECT, 0),
    ROW("low_bytes", low_bytes, NOTHING, 1),
    ROW("from_low", from_low_bytes, NOTHING, 1),
    ROW("remove", remove, NOTHING, 0),
    ROW("join", join, NOTHING, 0),
    ROW("part", part, NOTHING, 0),
    ROW("pairs 1", pairs_1, A_PAIR_LIST, 0),
    ROW("pairs 40", pairs_40, A_PAIR_LIST, 0),
    ROW("pairs 400", pairs_400, A_PAIR_LIST, 0),
    ROW("holds", holds, NOTHING, 1),
    {NULL, NULL, NULL, NULL, NOTHING, 0},
};

int applies(const row *r, const shape *of)
{
    const sample *const on = &of->samples[0];
    switch (r->needs) {
    case A_SEGMENT:
        return on->segments > 0;
    case QUALITY:
        return on->values_length > 0;
    case PORES:
        return on->pores_length > 0;
    case AN_OBJECT:
        return on->object_length > 0;
    case A_PAIR_LIST:
        return on->pairs != NULL;
    default:
        return 1;
    }
}
