/* The case file that tests/second/cases.py writes, and reading it.
 *
 * All numbers in the file are unsigned, high byte first:
 *
 *     file   8 bytes "FSKCASES", 4 bytes number of cases, then the cases
 *     case   1 byte   call: 1 read, 2 write, 3 trail, 4 segment, 5 remove,
 *                     6 join, 7 part, 8 holds, 9 quality, 10 set_quality,
 *                     11 pairs, 12 pores, 13 set_pores, 14 card_read,
 *                     15 card_write, 16 low_bytes, 17 from_low_bytes,
 *                     18 check
 *            1 byte   number of numbers passed, then 8 bytes for each,
 *                     in the order of the call's declaration: a view's
 *                     finger position and number are the first two, but of
 *                     card_write the second and third, behind the size; of
 *                     check the rule stands alone
 *            1 byte   number of input slices, then for each
 *                     4 bytes length and that many bytes
 *            4 bytes  size of the lent output in bytes
 *            1 byte   the byte that fills the output before the call
 *            4 bytes  expected number; of holds, expected second
 *            4 bytes  expected place
 *            8 bytes  expected length
 *            4 bytes  number of bytes written, then these bytes
 *
 * replay.c is the only program with this file, so its functions stand here whole.
 */
#ifndef CASE_FILE_H
#define CASE_FILE_H

#include <stdint.h>
#include <stdio.h>
#include <stdlib.h>
#include <string.h>

enum {
    READ = 1, WRITE, TRAIL, SEGMENT, REMOVE, JOIN, PART, HOLDS, QUALITY, SET_QUALITY, PAIRS,
    PORES, SET_PORES, CARD_READ, CARD_WRITE, LOW_BYTES, FROM_LOW_BYTES, CHECK, CALLS
};
enum { MOST_NUMBERS = 5, MOST_INPUTS = 2 };

typedef struct { const uint8_t *bytes; size_t length; } slice;

typedef struct {
    unsigned call, numbers_passed, inputs_lent;
    uint64_t numbers[MOST_NUMBERS];
    slice inputs[MOST_INPUTS];
    size_t out_size;
    uint8_t fill;
    uint32_t number, place;
    uint64_t length;
    slice written;
} test_case;

/* Of each call its name, and how many numbers and input slices it takes. */
static const struct { const char *name; unsigned numbers, inputs; } calls[CALLS] = {
    {"", 0, 0},        {"read", 0, 1},   {"write", 0, 1},       {"trail", 3, 1},
    {"segment", 3, 1}, {"remove", 3, 2}, {"join", 5, 1},        {"part", 5, 1},
    {"holds", 2, 2},   {"quality", 3, 1}, {"set_quality", 3, 2}, {"pairs", 3, 2},
    {"pores", 3, 1},   {"set_pores", 3, 2}, {"card_read", 1, 1}, {"card_write", 3, 1},
    {"low_bytes", 0, 1}, {"from_low_bytes", 0, 1}, {"check", 1, 1},
};

static _Noreturn void stop(const char *why)
{
    fprintf(stderr, "replay: %s\n", why);
    exit(2);
}

static slice take(slice *rest, size_t length)
{
    slice taken = {rest->bytes, length};
    if (length > rest->length)
        stop("the case file is cut");
    rest->bytes += length;
    rest->length -= length;
    return taken;
}

static uint64_t take_number(slice *rest, size_t bytes)
{
    slice taken = take(rest, bytes);
    uint64_t number = 0;
    for (size_t i = 0; i < bytes; i++)
        number = number << 8 | taken.bytes[i];
    return number;
}

static test_case take_case(slice *rest)
{
    test_case c = {0};
    c.call = (unsigned)take_number(rest, 1);
    if (c.call < READ || c.call >= CALLS)
        stop("the case file has an unknown call");
    c.numbers_passed = (unsigned)take_number(rest, 1);
    if (c.numbers_passed != calls[c.call].numbers)
        stop("a case passes another number of numbers than its call takes");
    for (unsigned i = 0; i < c.numbers_passed; i++)
        c.numbers[i] = take_number(rest, 8);
    c.inputs_lent = (unsigned)take_number(rest, 1);
    if (c.inputs_lent != calls[c.call].inputs)
        stop("a case lends another number of slices than its call takes");
    for (unsigned i = 0; i < c.inputs_lent; i++)
        c.inputs[i] = take(rest, (size_t)take_number(rest, 4));
    c.out_size = (size_t)take_number(rest, 4);
    c.fill = (uint8_t)take_number(rest, 1);
    c.number = (uint32_t)take_number(rest, 4);
    c.place = (uint32_t)take_number(rest, 4);
    c.length = take_number(rest, 8);
    c.written = take(rest, (size_t)take_number(rest, 4));
    if (c.written.length > c.out_size)
        stop("a case writes more than its output holds");
    return c;
}

static slice whole_file(const char *path)
{
    FILE *file = fopen(path, "rb");
    size_t room_for = 1 << 20, length = 0, got;
    uint8_t *bytes = malloc(room_for);
    if (file == NULL || bytes == NULL)
        stop("the case file cannot be opened");
    while ((got = fread(bytes + length, 1, room_for - length, file)) > 0) {
        length += got;
        if (length == room_for)
            bytes = realloc(bytes, room_for *= 2);
        if (bytes == NULL)
            stop("no memory");
    }
    fclose(file);
    return (slice){bytes, length};
}

/* The file's cases, one after another, and how many they are. */
static slice all_cases(const char *path, uint32_t *number)
{
    slice rest = whole_file(path);
    if (memcmp(take(&rest, 8).bytes, "FSKCASES", 8) != 0)
        stop("this is no case file");
    *number = (uint32_t)take_number(&rest, 4);
    return rest;
}

#endif
