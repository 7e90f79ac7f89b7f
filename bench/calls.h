/*
 * The calls that are measured, with the arguments that each takes from a record: one table for the
 * program that times them (bench.c) and for the one that measures their stack (stack.c).
 */
#ifndef CALLS_H
#define CALLS_H

#include "fsk.h"
#include "records.h"

/* The output's length: more than any call writes. */
enum { ROOM = 1 << 17 };

/* One side of a call: the library's, the plain one, or the one that does nothing. */
typedef fsk_answer (*call)(const sample *on, uint8_t *out, size_t room);

/* What a record must have for a call. */
typedef enum { NOTHING, A_SEGMENT, QUALITY, PORES, AN_OBJECT, A_PAIR_LIST } need;

typedef struct {
    const char *name;
    call library, plain;
    call empty;    /* the same arguments, lent to a call that does nothing */
    need needs;
    int untimed;   /* whether it is too simple for a time to tell anything: a loop over numbers, or
                      no loop at all */
} row;

/* Behind the last row stands one without a name. */
extern const row rows[];

/* Whether the records of a shape have what a row needs. The first is looked at: the others are
 * alike, and a call that one of them is not made for is refused, which ends the program. */
int applies(const row *r, const shape *of);

#endif
