/*
 * The locker card's job. card write SIZE RECORD FINGER NUMBER [OUT] makes the object that a card takes of one view of a record, and
 * card read SIZE OBJECT [OUT] makes a record of such an object. SIZE is normal or compact, or its number; FINGER and NUMBER name
 * the view (fingers.h says how). What is made is read or written back, to show what of it comes again; it goes to the file OUT, if
 * one is named. card runs [COORDINATE..] prints the low bytes of a run of start coordinates, and the run that a card restores from
 * them. The exit status is 1 where the size, the record, the view, the object or the run is refused, and 2 where the arguments are
 * wrong or a file cannot be read or written.
 */
#include <string.h>

#include "fields.h"

enum { MOST_OBJECT = 65540 }; /* fsk.h, at fsk_card_read */

static const char *const sizes[] = {"normal", "compact"};

enum { SIZES = sizeof sizes / sizeof *sizes };

static uint8_t record[MOST_RECORD + 1], second[MOST_RECORD], sheet[MOST_SHEET];
static uint8_t object[MOST_OBJECT + 1], again[MOST_OBJECT]; /* a byte more than an object, as with a record: load says why */

/* Says what a record of one view has, and gives whether the library reads it. */
static int print_record(const uint8_t *from, size_t length)
{
    const fsk_answer read = fsk_read(from, length, sheet, sizeof sheet);
    unsigned lines = 0;
    if (refused(read))
        return 0;
    fields left = {sheet, sheet + read.length};
    const unsigned points_per_cm = take(&left).value[2];
    const field view = take(&left);
    for (; comes(&left, LINE); lines++)
        take(&left);
    printf("a record of %zu bytes with %u points per cm; ", length, points_per_cm);
    print_name(name_of(view));
    printf(": width %u, height %u, lines %u, %s\n", two_bytes(view.value + 4), two_bytes(view.value + 6), lines,
           comes(&left, INDEX) ? "an index" : "no index");
    return 1;
}

/* The jobs give the exit status; `out` is null where no file is named. */

static int write_object(uint32_t size, const char *file, view_name view, const char *out)
{
    const long length = load(file, record);
    if (length < 0)
        return 2;
    const fsk_answer written = fsk_card_write(size, record, (size_t)length, view.finger, view.number, object, sizeof object);
    if (refused(written))
        return 1;
    printf("an object of %zu bytes, the record has %ld\nread again: ", written.length, length);
    const fsk_answer read = fsk_card_read(size, object, written.length, second, sizeof second);
    if (refused(read) || !print_record(second, read.length))
        return 1;
    return out == NULL ? 0 : save(out, object, written.length);
}

static int read_object(uint32_t size, const char *file, const char *out)
{
    const long length = load_bytes(file, object, sizeof object);
    if (length < 0)
        return 2;
    const fsk_answer read = fsk_card_read(size, object, (size_t)length, second, sizeof second);
    if (refused(read) || !print_record(second, read.length))
        return 1;
    const fsk_answer written = fsk_card_write(size, second, read.length, 0, 0, again, sizeof again); /* unknown 0, its only view */
    if (refused(written))
        return 1;
    printf("written again: an object of %zu bytes, %s\n", written.length,
           same(again, written.length, object, (size_t)length) ? "the same byte for byte" : "without what stood behind 90");
    return out == NULL ? 0 : save(out, second, read.length);
}

/* Puts the coordinates into `second` as a run. Gives its length in bytes, or -1 if one is no such number or they are too many. */
static long take_run(int count, char **coordinates)
{
    uint8_t *end = second;
    if (count > MOST_LINES)
        return -1;
    for (int i = 0; i < count; i++) {
        uint32_t coordinate;
        if (!is_number(coordinates[i], UINT16_MAX, &coordinate))
            return -1;
        end = put_two_bytes(end, coordinate);
    }
    return (long)(end - second);
}

/* The run that take_run put. */
static int show_run(size_t length)
{
    const fsk_answer low = fsk_low_bytes(second, length, object, sizeof object);
    if (refused(low))
        return 1;
    printf("low bytes:");
    for (size_t i = 0; i < low.length; i++)
        printf(" %u", object[i]);
    printf("\nrestored:");
    const fsk_answer restored = fsk_from_low_bytes(object, low.length, again, sizeof again);
    for (size_t i = 0; i < restored.length; i++) /* the answer counts numbers, which have two bytes each */
        printf(" %u", two_bytes(again + 2 * i));
    puts("");
    return refused(restored) || !same(again, 2 * restored.length, second, length);
}

/* Whether the arguments name this job and are so many, at least and at most. */
static int is_job(const char *job, int least, int most, int count, char **arguments)
{
    return count >= least && count <= most && strcmp(arguments[1], job) == 0;
}

int main(int count, char **arguments)
{
    uint32_t size;
    view_name view;
    long length;
    /* behind the last argument stands a null pointer: no OUT */
    if (is_job("write", 6, 7, count, arguments) && is_named(arguments[2], sizes, SIZES, &size) && is_name(arguments + 4, &view))
        return write_object(size, arguments[3], view, arguments[6]);
    if (is_job("read", 4, 5, count, arguments) && is_named(arguments[2], sizes, SIZES, &size))
        return read_object(size, arguments[3], arguments[4]);
    if (is_job("runs", 2, count, count, arguments) && (length = take_run(count - 2, arguments + 2)) >= 0)
        return show_run((size_t)length);
    fputs("usage: card write SIZE RECORD FINGER NUMBER [OUT] | card read SIZE OBJECT [OUT] | card runs [COORDINATE..]\n", stderr);
    return 2;
}
