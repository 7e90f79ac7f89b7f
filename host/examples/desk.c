/*
 * The enrolment desk's job: desk FILE FINGER NUMBER SEGMENT COLUMN ROW VALUE [OUT] raises (or lowers) the quality of one cell, in
 * a segment of local quality. FINGER and NUMBER name the view (fingers.h says how); segments, columns and rows are counted from 0;
 * VALUE is at most 255. The cells are printed as they were and as they are in the new record; then the old values are set again,
 * which gives the old record. The new record is written to the file OUT, if one is named. The exit status is 1 where the record,
 * the view, the segment or the value is refused or there is no such cell, and 2 where the arguments are wrong or a file cannot be
 * read or written.
 */
#include <string.h>

#include "fields.h"

enum { MOST_VALUES = 8 * MOST_RECORD }; /* suffices for any record: fsk.h, at fsk_quality */

enum { CELL_WIDTH, CELL_HEIGHT, BITS, CELLS }; /* where what stands in the values; from CELLS on, each cell has a byte */

/* A segment, a cell in it, and the value that the cell is to have. */
typedef struct {
    view_name view;
    uint32_t segment, column, row, value;
} change;

typedef struct {
    unsigned columns, rows;
} grid;

static uint8_t record[MOST_RECORD + 1], second[MOST_RECORD], third[MOST_RECORD], sheet[MOST_SHEET];
static uint8_t old_values[MOST_VALUES], new_values[MOST_VALUES], read_values[MOST_VALUES];

/* Whether the six texts are a change. `wanted` then has it. */
static int is_change(char **texts, change *wanted)
{
    return is_name(texts, &wanted->view) && is_number(texts[2], UINT32_MAX, &wanted->segment) &&
           is_number(texts[3], UINT32_MAX, &wanted->column) && is_number(texts[4], UINT32_MAX, &wanted->row) &&
           is_number(texts[5], UINT8_MAX, &wanted->value);
}

/* How the old values lie in the view's image, in words too. */
static grid lay_out(field view)
{
    const unsigned width = two_bytes(view.value + 4), height = two_bytes(view.value + 6), bits = old_values[BITS];
    const unsigned across = old_values[CELL_WIDTH], down = old_values[CELL_HEIGHT];
    const grid cells = {(width + across - 1) / across, (height + down - 1) / down};
    printf("image %u by %u points, cells %u by %u: in a row %u, rows %u; bits of a value %u, so 0 to %u\n", width, height, across,
           down, cells.columns, cells.rows, bits, (1u << bits) - 1);
    return cells;
}

static void print_cells(const uint8_t *values, size_t length, grid cells)
{
    for (size_t i = CELLS; i < length; i++)
        printf("%5u%s", values[i], (i - CELLS + 1) % cells.columns == 0 ? "\n" : "");
}

/* Sets the cell: makes the new values, and from them the new record. Gives its length, or 0 if there is none. */
static size_t set_cell(const change *wanted, size_t length, size_t values, grid cells)
{
    printf("column %u, row %u: ", (unsigned)wanted->column, (unsigned)wanted->row);
    if (wanted->column >= cells.columns || wanted->row >= cells.rows) {
        puts("there is no such cell");
        return 0;
    }
    uint8_t *cell = new_values + CELLS + (size_t)wanted->row * cells.columns + wanted->column;
    memcpy(new_values, old_values, values);
    printf("%u is to become %u\n", *cell, (unsigned)wanted->value);
    *cell = (uint8_t)wanted->value;
    const fsk_answer set = fsk_set_quality(record, length, wanted->view.finger, wanted->view.number, wanted->segment, new_values,
                                           values, second, sizeof second);
    return refused(set) ? 0 : set.length;
}

/* Whether the new record has the new values, and becomes the old record where the old values are set again. Says so. */
static int comes_back(const change *done, size_t new_length, size_t length, size_t values, grid cells)
{
    const view_name view = done->view;
    const fsk_answer read = fsk_quality(second, new_length, view.finger, view.number, done->segment, read_values,
                                        sizeof read_values);
    const fsk_answer back = fsk_set_quality(second, new_length, view.finger, view.number, done->segment, old_values, values, third,
                                            sizeof third);
    if (refused(read) || refused(back))
        return 0;
    const int as_set = same(read_values, read.length, new_values, values), as_before = same(third, back.length, record, length);
    printf("a new record of %zu bytes, the old one has %zu; read again, the values are %s that were set\n", new_length, length,
           as_set ? "those" : "not those");
    print_cells(read_values, read.length, cells);
    printf("with the old values set again it is %s old record, byte for byte\n", as_before ? "the" : "not the");
    return as_set && as_before;
}

int main(int count, char **arguments)
{
    change wanted;
    if (count < 8 || count > 9 || !is_change(arguments + 2, &wanted)) {
        fputs("usage: desk FILE FINGER NUMBER SEGMENT COLUMN ROW VALUE [OUT]\n", stderr);
        return 2;
    }
    const long length = load(arguments[1], record);
    if (length < 0)
        return 2;
    const fsk_answer quality = fsk_quality(record, (size_t)length, wanted.view.finger, wanted.view.number, wanted.segment,
                                           old_values, sizeof old_values);
    if (refused(quality))
        return 1;
    const fsk_answer read = fsk_read(record, (size_t)length, sheet, sizeof sheet);
    if (refused(read))
        return 1;
    fields left = {sheet, sheet + read.length};
    find_view(&left, wanted.view); /* fsk_quality found the view, so the sheet has it */
    const grid cells = lay_out(take(&left));
    print_cells(old_values, quality.length, cells);
    const size_t new_length = set_cell(&wanted, (size_t)length, quality.length, cells);
    if (new_length == 0 || !comes_back(&wanted, new_length, (size_t)length, quality.length, cells))
        return 1;
    return count == 9 ? save(arguments[8], second, new_length) : 0;
}
