/*
 * Makes each call of the library, and the same call written by hand in C, on a stack of its own, on
 * the same records as bench.c, and prints how many bytes of stack it took: the most over the
 * records of a shape. The figures are the same in every run.
 *
 * The stack is painted before the call, and the lowest byte that is another afterwards is how far
 * the call went down; it may lie below the lowest stack pointer, in the 128 bytes there that x86-64
 * leaves to a function. It is painted twice, each time with another byte: what one paint hides,
 * since the call wrote just that byte, the other shows. Before that the call is made once without,
 * so that the dynamic linker, which looks a function of the C library up when it is first called
 * and takes about 3 KB for that, is done with it.
 *
 * The program ends with 1 where its own yardstick comes out wrong, where the stack does not
 * suffice, and where a call is refused.
 */
#define _XOPEN_SOURCE 700 /* for ucontext.h */
#include <stdio.h>
#include <stdlib.h>
#include <string.h>
#include <ucontext.h>

#include "calls.h"

enum {
    STACK = 1 << 18,
    SPARE = 1 << 12,   /* what must be left of it */
    CUSHION = 1 << 10, /* more than switching stacks takes */
    RETURN_ADDRESS = 8,
    YARD = 1000
};
static const uint8_t paints[] = {0x5C, 0xA3};
enum { PAINTS = sizeof paints };

static _Alignas(64) uint8_t stack[STACK];
static uint8_t out[ROOM];
static ucontext_t outside, inside;

/* The call that is made inside, and its answer. */
static call made;
static const sample *lent;
static fsk_answer answer;

static void stop(const char *name, const shape *of, int number, const char *why)
{
    fprintf(stderr, "stack: %s of %s, record %d: %s\n", name, of->name, number, why);
    exit(1);
}

/* The first function on the stack. The call is made below a cushion: what the C library leaves at
 * the stack's top, when it switches there and back, is not deeper than the call. */
static void inside_main(void)
{
    volatile uint8_t cushion[CUSHION];
    cushion[0] = 0;
    answer = made(lent, out, ROOM);
    (void)cushion[0];
}

static void make_inside(void)
{
    getcontext(&inside);
    inside.uc_stack.ss_sp = stack;
    inside.uc_stack.ss_size = STACK;
    inside.uc_link = &outside;
    makecontext(&inside, inside_main, 0);
    swapcontext(&outside, &inside);
}

/* From the stack's top to the lowest byte written by a call on one record of a shape; the name is
 * that of the row. */
static size_t depth(const char *name, call side, const shape *of, int number)
{
    size_t deepest = 0;
    made = side;
    lent = &of->samples[number];
    make_inside();
    for (int i = 0; i < PAINTS; i++) {
        size_t same = 0;
        memset(stack, paints[i], STACK);
        answer.number = UINT32_MAX; /* so that a call that was not made is no accepted one */
        make_inside();
        if (answer.number != 0)
            stop(name, of, number, "it is refused");
        while (same < STACK && stack[same] == paints[i])
            same++;
        if (STACK - same > deepest)
            deepest = STACK - same;
    }
    if (deepest > STACK - SPARE)
        stop(name, of, number, "the stack does not suffice");
    return deepest;
}

/* What one side of a call takes, counted from the stack pointer right before the call. So its
 * return address is counted; arguments that are handed over on the stack are not, since they are
 * part of the caller's frame. The empty side takes a return address and nothing else, and all above
 * it is the same (calls.c), so that the difference is exact. */
static size_t taken(const char *name, call side, call empty, const shape *of, int number)
{
    return depth(name, side, of, number) - depth(name, empty, of, number) + RETURN_ADDRESS;
}

/* The same, the most over the records of a shape. */
static size_t most_taken(const char *name, call side, call empty, const shape *of)
{
    size_t most = 0;
    for (int number = 0; number < ALIKE; number++) {
        const size_t bytes = taken(name, side, empty, of, number);
        if (bytes > most)
            most = bytes;
    }
    return most;
}

/* ---- the yardstick ---- */

static uint8_t yard_byte;

/* Takes YARD bytes: a frame address has the saved frame pointer and the return address above it. */
static fsk_answer take_yard(const sample *on, uint8_t *to, size_t room)
{
    volatile uint8_t *const frame = __builtin_frame_address(0);
    (void)on, (void)to, (void)room;
    frame[2 * RETURN_ADDRESS - YARD] = yard_byte;
    return (fsk_answer){0, 0, 0};
}

static fsk_answer take_nothing(const sample *on, uint8_t *to, size_t room)
{
    (void)on, (void)to, (void)room;
    return (fsk_answer){0, 0, 0};
}

/* The byte that is to be found is that of each paint in turn. */
static void check_yardstick(const shape *of)
{
    for (int i = 0; i < PAINTS; i++) {
        yard_byte = paints[i];
        if (taken("yardstick", take_yard, take_nothing, of, 0) != YARD)
            stop("yardstick", of, 0, "it comes out wrong");
    }
}

/* ---- the table ---- */

int main(void)
{
    shape shapes[SHAPES];
    const row *deepest = rows;
    const shape *deepest_of = shapes;
    size_t most = 0;
    make_shapes(shapes);
    check_yardstick(shapes);
    printf("%-11s %-12s %8s %8s\n", "", "", "library", "plain");
    printf("%-11s %-12s %8s %8s\n", "call", "shape", "stack", "stack");
    for (const row *r = rows; r->name != NULL; r++)
        for (const shape *of = shapes; of < shapes + SHAPES; of++) {
            size_t library, plain;
            if (!applies(r, of))
                continue;
            library = most_taken(r->name, r->library, r->empty, of);
            plain = most_taken(r->name, r->plain, r->empty, of);
            printf("%-11s %-12s %8zu %8zu\n", r->name, of->name, library, plain);
            if (library > most)
                most = library, deepest = r, deepest_of = of;
        }
    printf("deepest of the library: %s, shape %s, %zu bytes\n", deepest->name, deepest_of->name,
           most);
    return 0;
}
