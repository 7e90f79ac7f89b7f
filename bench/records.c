/*
 * The benchmark's records, shape by shape: document 01's sample A and others like it, one of the
 * size that a card takes, one of about 30 KB with several views of long lines, one view with as
 * many lines as a view can have, one view with local quality, and one with pores. The sheets, the
 * values and the card's objects are those that the plain calls give.
 */
#include "records.h"

#include <stdio.h>
#include <stdlib.h>

#include "asked.h"
#include "maker.h"

/* ---- where bytes are made, and where they stay ---- */

enum { ROOM = 1 << 17, ARENA = 1 << 22, GRAIN = 16 };

static maker draft;
static uint8_t scratch[ROOM];
static _Alignas(GRAIN) uint8_t arena[ARENA];
static size_t arena_used; /* a multiple of GRAIN */

/* Copies bytes to where they stay, right behind the last ones: a power of two apart, the records of
 * a shape would contend for the same few places of a cache. */
static const uint8_t *keep(const uint8_t *bytes, size_t length)
{
    uint8_t *const kept = arena + arena_used;
    if (length > ARENA - arena_used) {
        fprintf(stderr, "records: they take more than %d bytes\n", ARENA);
        exit(1);
    }
    memcpy(kept, bytes, length);
    arena_used += (length + GRAIN - 1) / GRAIN * GRAIN;
    return kept;
}

/* ---- the shapes: each makes the record of a number ---- */

/* What a record's bits are drawn from: 0 for record 0. Seeds an equal step apart would give numbers
 * an equal step apart, record after record; so they are mixed. */
static uint32_t seed(uint32_t number)
{
    uint32_t mixed = number * 0x9E3779B9u;
    mixed = (mixed ^ mixed >> 16) * 0x85EBCA6Bu;
    return mixed ^ mixed >> 13;
}

static const uint8_t sample_a[] = {
    0x46, 0x53, 0x4B, 0x00, 0x30, 0x31, 0x30, 0x00, 0x00, 0x00, 0x00, 0x38, 0x00, 0x00,
    0x01, 0xC5, 0x08, 0x08, 0x04, 0x10, 0x40, 0x20, 0x00, 0x00, 0x00, 0x02, 0x00, 0x50,
    0x01, 0x00, 0x01, 0x00, 0x00, 0x10, 0x50, 0x02, 0x85, 0x00, 0x48, 0xC0, 0x0E, 0x14,
    0x50, 0x02, 0x85, 0x00, 0x48, 0xC0, 0x0E, 0x14, 0x00, 0x02, 0x01, 0x60, 0x00, 0x00,
};

/* The view of the records that have only one. */
static const plain_name right_index = {2, 0};

/* Ends a record and describes it by its last view; what is lent beside it comes last, in
 * make_shapes. */
static sample made(maker *m, plain_name view, uint32_t lines, uint32_t segments)
{
    const size_t length = put_length(m);
    return (sample){.record = keep(m->bytes, length), .length = length, .view = view,
                    .lines = lines, .with_segments = view, .segments = segments};
}

/* Record 0 is document 01's own; the others have other lines, as long as those. */
static sample make_sample_a(maker *m, uint32_t number)
{
    enum { LINES = 2, CODES = 1, SKELETON = 34, INDEX = 50 }; /* the last two: where they start */
    *m = (maker){.c = 8, .b = 8, .k = 4, .drawn = seed(number)};
    put_bytes(m, sample_a, SKELETON);
    if (number == 0)
        put_bytes(m, sample_a + SKELETON, INDEX - SKELETON);
    else
        for (int line = 0; line < LINES; line++)
            put_line(m, CODES);
    put_bytes(m, sample_a + INDEX, sizeof sample_a - INDEX);
    return made(m, right_index, LINES, 0);
}

/* The standard's compact widths; the index is small too, its numbers are at most 7. */
static sample make_compact(maker *m, uint32_t number)
{
    enum { LINES = 58, CODES = 1, MORE = 2 };
    *m = (maker){.c = 8, .b = 6, .k = 4, .w = 3, .drawn = seed(number)};
    put_header(m, 1, 100, 16);
    put_view(m, right_index, LINES, CODES, MORE);
    put_segments(m, 0);
    return made(m, right_index, LINES, 0);
}

/* The standard's normal widths; two views are of the same finger, every second has segments. */
static sample make_long_lines(maker *m, uint32_t number)
{
    enum { VIEWS = 6, LINES = 48, CODES = 100, MORE = 155, SEGMENTS = 3 };
    static const plain_name names[VIEWS] = {{1, 0}, {2, 0}, {2, 1}, {3, 0}, {6, 0}, {7, 0}};
    *m = (maker){.c = 11, .b = 8, .k = 4, .w = 6, .drawn = seed(number)};
    put_header(m, VIEWS, 200, 24);
    for (uint32_t view = 0; view < VIEWS; view++) {
        put_view(m, names[view], LINES, CODES, MORE);
        put_segments(m, view % 2 == 0 ? 0 : SEGMENTS);
    }
    return made(m, names[VIEWS - 1], LINES, SEGMENTS);
}

/* The standard's compact widths. */
static sample make_many_lines(maker *m, uint32_t number)
{
    enum { LINES = 1024, CODES = 8, MORE = 16 };
    *m = (maker){.c = 8, .b = 6, .k = 4, .w = 6, .drawn = seed(number)};
    put_header(m, 1, 100, 16);
    put_view(m, right_index, LINES, CODES, MORE);
    put_segments(m, 0);
    return made(m, right_index, LINES, 0);
}

/* The standard's normal widths, and a segment of local quality. */
static sample make_many_cells(maker *m, uint32_t number)
{
    enum { LINES = 60, CODES = 20, MORE = 60 };
    *m = (maker){.c = 11, .b = 8, .k = 4, .w = 6, .drawn = seed(number)};
    put_header(m, 1, 200, 24);
    put_view(m, right_index, LINES, CODES, MORE);
    put_quality(m);
    return made(m, right_index, LINES, 1);
}

/* The standard's normal widths, and a segment of pores. */
static sample make_many_pores(maker *m, uint32_t number)
{
    enum { LINES = 400, CODES = 8, MORE = 16 };
    *m = (maker){.c = 11, .b = 8, .k = 4, .w = 6, .drawn = seed(number)};
    put_header(m, 1, 200, 24);
    put_view(m, right_index, LINES, CODES, MORE);
    put_pores(m, LINES);
    return made(m, right_index, LINES, 1);
}

static const struct {
    const char *name;
    sample (*make)(maker *m, uint32_t number);
} makers[SHAPES] = {
    {"sample A", make_sample_a},
    {"compact", make_compact},
    {"long lines", make_long_lines},
    {"1,024 lines", make_many_lines},
    {"1,900 cells", make_many_cells},
    {"2,000 pores", make_many_pores},
};

/* ---- what is lent beside a record ---- */

static void add_sheet(sample *to)
{
    to->sheet_length = plain_read(to->record, to->length, scratch, ROOM).length;
    to->sheet = keep(scratch, to->sheet_length);
}

/* Nothing is added where the last of the segments is not of local quality. */
static void add_values(sample *to)
{
    const plain_name view = to->with_segments;
    to->values_length = plain_quality(to->record, to->length, view.finger, view.number,
                                      to->segments - 1, scratch, ROOM).length;
    to->values = keep(scratch, to->values_length);
}

/* Likewise where it is not of pores. */
static void add_pores(sample *to)
{
    const plain_name view = to->with_segments;
    const fsk_answer read = plain_pores(to->record, to->length, view.finger, view.number,
                                        to->segments - 1, scratch, ROOM);
    to->pores_length = 4 * read.length;
    to->pores = keep(scratch, to->pores_length);
}

/* Nothing is added where the record is of neither size. */
static void add_object(sample *to)
{
    const plain_name view = to->view;
    fsk_answer written;
    for (to->size = 0; to->size < SIZES; to->size++) {
        written = plain_card_write(to->size, to->record, to->length, view.finger, view.number,
                                   scratch, ROOM);
        if (written.number == 0)
            break;
    }
    to->object_length = written.length;
    to->object = keep(scratch, to->object_length);
}

static void add_run(sample *to)
{
    to->run_length = list_run(to, scratch);
    to->run = keep(scratch, to->run_length);
}

static void add_low_bytes(sample *to)
{
    to->low_bytes_length = plain_low_bytes(to->run, to->run_length, scratch, ROOM).length;
    to->low_bytes = keep(scratch, to->low_bytes_length);
}

static void add_orders(sample *to)
{
    const plain_block index = choose_view(to);
    to->removed_length = list_removal(to, scratch);
    to->removed = keep(scratch, to->removed_length);
    if (to->ordered_lines == MOST_LINES)
        to->pairs = keep(scratch, list_pairs(to, index, scratch));
}

static void add_to_each(shape *to, void (*add)(sample *to))
{
    for (int number = 0; number < ALIKE; number++)
        add(&to->samples[number]);
}

/* The records of a shape come first, then their sheets and so on, so that what a call reads of the
 * sixteen lies together. */
void make_shapes(shape shapes[SHAPES])
{
    for (int i = 0; i < SHAPES; i++) {
        shapes[i].name = makers[i].name;
        for (uint32_t number = 0; number < ALIKE; number++)
            shapes[i].samples[number] = makers[i].make(&draft, number);
        add_to_each(&shapes[i], add_sheet);
        add_to_each(&shapes[i], add_values);
        add_to_each(&shapes[i], add_pores);
        add_to_each(&shapes[i], add_object);
        add_to_each(&shapes[i], add_run);
        add_to_each(&shapes[i], add_low_bytes);
        add_to_each(&shapes[i], add_orders);
    }
}
