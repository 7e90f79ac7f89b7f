/* Lent slices between guard pages, and the faults of a call that leaves them.
 *
 * Each slice is placed so that its end touches a page that may not be touched, or
 * so that its start does; input slices can only be read during a call. A fault
 * inside a call is caught, and the host goes on behind the call.
 *
 * replay.c is the only program with this file, so its functions stand here whole.
 */
#ifndef GUARD_H
#define GUARD_H

#include <setjmp.h>
#include <signal.h>
#include <stdint.h>
#include <string.h>
#include <sys/mman.h>

#include "case_file.h"

enum { PAGES = 1 << 16, GUARD = 1 << 20 }; /* whole pages of any usual size */
typedef enum { AT_END, AT_START, EMPTY_AS_NULL } placing;

/* Pages that may be touched, between two guards that may not. */
typedef struct { uint8_t *start; size_t size; } room;

static const char *const placings[] = {"ends at a guard", "starts at a guard",
                                       "empty slices are null"};

static room input_rooms[MOST_INPUTS], output_room;
static const uint8_t *inputs_at[MOST_INPUTS];
static uint8_t *output_at;
static sigjmp_buf after_fault;
static volatile sig_atomic_t in_call;
static const uint8_t *volatile fault_address;
static volatile sig_atomic_t fault_signal;

/* ---- the lent slices ---- */

static room make_room(size_t longest)
{
    size_t size = (longest / PAGES + 1) * PAGES;
    uint8_t *all = mmap(NULL, size + 2 * GUARD, PROT_NONE,
                        MAP_PRIVATE | MAP_ANONYMOUS, -1, 0);
    if (all == MAP_FAILED || mprotect(all + GUARD, size, PROT_READ | PROT_WRITE))
        stop("no memory between guards");
    return (room){all + GUARD, size};
}

static void make_rooms(slice rest, uint32_t cases)
{
    size_t longest = 0;
    for (uint32_t i = 0; i < cases; i++) {
        test_case c = take_case(&rest);
        for (unsigned k = 0; k < c.inputs_lent; k++)
            longest = c.inputs[k].length > longest ? c.inputs[k].length : longest;
        longest = c.out_size > longest ? c.out_size : longest;
    }
    if (rest.length != 0)
        stop("the case file has bytes after its last case");
    for (unsigned k = 0; k < MOST_INPUTS; k++)
        input_rooms[k] = make_room(longest);
    output_room = make_room(longest);
}

static uint8_t *placed(room r, size_t length, placing run)
{
    if (run == EMPTY_AS_NULL && length == 0)
        return NULL;
    return run == AT_START ? r.start : r.start + r.size - length;
}

static void allow(room r, int what)
{
    if (mprotect(r.start, r.size, what))
        stop("a room's protection cannot be changed");
}

static void lend(const test_case *c, placing run)
{
    for (unsigned k = 0; k < c->inputs_lent; k++) {
        uint8_t *at = placed(input_rooms[k], c->inputs[k].length, run);
        allow(input_rooms[k], PROT_READ | PROT_WRITE);
        if (c->inputs[k].length > 0)
            memcpy(at, c->inputs[k].bytes, c->inputs[k].length);
        allow(input_rooms[k], PROT_READ);
        inputs_at[k] = at;
    }
    output_at = placed(output_room, c->out_size, run);
    if (c->out_size > 0)
        memset(output_at, c->fill, c->out_size);
}

/* ---- faults ---- */

static void on_fault(int signal_number, siginfo_t *info, void *context)
{
    (void)context;
    if (!in_call) {
        signal(signal_number, SIG_DFL);
        raise(signal_number);
        return;
    }
    in_call = 0;
    fault_signal = signal_number;
    fault_address = info->si_addr;
    siglongjmp(after_fault, 1);
}

static void catch_faults(void)
{
    static const int faults[] = {SIGSEGV, SIGBUS, SIGILL, SIGFPE, SIGABRT};
    static uint8_t stack[1 << 16];
    stack_t other = {.ss_sp = stack, .ss_size = sizeof stack};
    struct sigaction action = {0};
    action.sa_sigaction = on_fault;
    action.sa_flags = SA_SIGINFO | SA_NODEFER | SA_ONSTACK;
    if (sigaltstack(&other, NULL))
        stop("faults cannot be caught");
    for (size_t i = 0; i < sizeof faults / sizeof faults[0]; i++)
        if (sigaction(faults[i], &action, NULL))
            stop("faults cannot be caught");
}

#endif
