/*
 * The enrolment desk's job on a record with pores: pores FILE FINGER NUMBER SEGMENT LINE PORE DISTANCE GONE corrects one distance, in
 * a segment of pores, and then removes the line GONE. FINGER and NUMBER name the view (fingers.h says how); segments, lines and the
 * pores of a line are counted from 0. The pores are printed line by line as they were, as they are in the new record, and as they are
 * when the line is removed from that: the other lines keep theirs. The exit status is 1 where the record, the view, the segment, the
 * distance or the removal is refused or there is no such pore, and 2 where the arguments are wrong or the file cannot be read.
 */
#include <string.h>

#include "fields.h"

enum { MOST_VALUES = 16 * MOST_RECORD }; /* suffices for any record: fsk.h, at fsk_pores */

enum { NUMBER = 4 }; /* the bytes of a value */

enum { RESOLUTION, BITS, LINES }; /* which value is what; from LINES on, each line has a count and that many distances */

/* A pore of a segment, the distance that it is to have, and the line to remove then. */
typedef struct {
    view_name view;
    uint32_t segment, line, pore, distance, gone;
} change;

/* Values as fsk_pores writes them; the length is in bytes. */
typedef struct {
    uint8_t bytes[MOST_VALUES];
    size_t length;
} pores;

static uint8_t record[MOST_RECORD + 1], second[MOST_RECORD], third[MOST_RECORD];
static pores expected, found;

/* Whether the seven texts are a change. `wanted` then has it. */
static int is_change(char **texts, change *wanted)
{
    uint32_t *const numbers[] = {&wanted->segment, &wanted->line, &wanted->pore, &wanted->distance};
    if (!is_name(texts, &wanted->view) || !is_number(texts[6], UINT16_MAX, &wanted->gone))
        return 0;
    for (int i = 0; i < 4; i++)
        if (!is_number(texts[2 + i], UINT32_MAX, numbers[i]))
            return 0;
    return 1;
}

static uint32_t number_at(const uint8_t *value)
{
    return (uint32_t)two_bytes(value) << 16 | two_bytes(value + 2);
}

static void set_number(uint8_t *value, uint32_t number)
{
    for (int i = NUMBER; i-- > 0; number >>= 8)
        value[i] = (uint8_t)number;
}

/* The bytes of a line, whose count stands here. */
static size_t bytes_of(const uint8_t *line)
{
    return NUMBER * (1 + (size_t)number_at(line));
}

/* Where a line's count stands; the end of the values if there is no such line. */
static uint8_t *find_line(pores *of, uint32_t line)
{
    uint8_t *at = of->bytes + NUMBER * LINES, *end = of->bytes + of->length;
    for (; line > 0 && at < end; line--)
        at += bytes_of(at);
    return at;
}

/* Reads the segment's pores from a record. Gives whether that is accepted; if not, says why. */
static int read_pores(const uint8_t *from, size_t length, const change *wanted, pores *to)
{
    const fsk_answer read = fsk_pores(from, length, wanted->view.finger, wanted->view.number, wanted->segment, to->bytes,
                                      sizeof to->bytes);
    to->length = NUMBER * read.length; /* the answer counts numbers */
    return !refused(read);
}

/* Says what the pores are, and gives how many lines there are. */
static uint32_t print_pores(const pores *of)
{
    const uint8_t *at = of->bytes, *end = at + of->length;
    const unsigned bits = number_at(at + NUMBER * BITS);
    uint32_t lines = 0;
    printf("resolution %u; bits of an element %u, so a distance above %u takes several\n",
           (unsigned)number_at(at + NUMBER * RESOLUTION), bits, (1u << bits) - 2);
    for (at += NUMBER * LINES; at < end; at += bytes_of(at), lines++) {
        printf("  line %u: pores %u, distances", (unsigned)lines, (unsigned)number_at(at));
        for (size_t i = NUMBER; i < bytes_of(at); i += NUMBER)
            printf(" %u", (unsigned)number_at(at + i));
        puts(bytes_of(at) == NUMBER ? " none" : "");
    }
    return lines;
}

/* Sets the distance: first among the expected values, then in a new record. Gives its length, or 0 if there is none. */
static size_t set_distance(const change *wanted, size_t length)
{
    uint8_t *line = find_line(&expected, wanted->line);
    printf("line %u, pore %u: ", (unsigned)wanted->line, (unsigned)wanted->pore);
    if (line == expected.bytes + expected.length || wanted->pore >= number_at(line)) {
        puts("there is no such pore");
        return 0;
    }
    uint8_t *distance = line + NUMBER * (1 + (size_t)wanted->pore);
    printf("%u is to become %u\n", (unsigned)number_at(distance), (unsigned)wanted->distance);
    set_number(distance, wanted->distance);
    const fsk_answer set = fsk_set_pores(record, length, wanted->view.finger, wanted->view.number, wanted->segment, expected.bytes,
                                         expected.length, second, sizeof second);
    return refused(set) ? 0 : set.length;
}

/* Removes the line from the new record, and from the expected values. Gives the length of what is left, or 0 if it is refused. */
static size_t remove_line(const change *wanted, size_t length, uint32_t lines)
{
    const uint8_t list[2] = {(uint8_t)(wanted->gone >> 8), (uint8_t)wanted->gone};
    const fsk_answer removed = fsk_remove(second, length, wanted->view.finger, wanted->view.number, lines, list, sizeof list, third,
                                          sizeof third);
    if (refused(removed))
        return 0;
    uint8_t *line = find_line(&expected, wanted->gone); /* it is there: fsk_remove found it */
    const size_t bytes = bytes_of(line), before = (size_t)(line - expected.bytes);
    memmove(line, line + bytes, expected.length - before - bytes);
    expected.length -= bytes;
    return removed.length;
}

/* Says what pores a record has, and gives whether they are the expected ones. */
static int has_expected(const uint8_t *from, size_t length, const change *wanted)
{
    if (!read_pores(from, length, wanted, &found))
        return 0;
    const int is_so = same(found.bytes, found.length, expected.bytes, expected.length);
    printf("a record of %zu bytes; its pores are %s\n", length, is_so ? "as they must be" : "not as they must be");
    print_pores(&found);
    return is_so;
}

int main(int count, char **arguments)
{
    change wanted;
    if (count != 9 || !is_change(arguments + 2, &wanted)) {
        fputs("usage: pores FILE FINGER NUMBER SEGMENT LINE PORE DISTANCE GONE\n", stderr);
        return 2;
    }
    const long length = load(arguments[1], record);
    if (length < 0)
        return 2;
    if (!read_pores(record, (size_t)length, &wanted, &expected))
        return 1;
    const uint32_t lines = print_pores(&expected);
    const size_t new_length = set_distance(&wanted, (size_t)length);
    if (new_length == 0 || !has_expected(second, new_length, &wanted))
        return 1;
    printf("line %u goes: ", (unsigned)wanted.gone);
    const size_t left = remove_line(&wanted, new_length, lines);
    return left > 0 && has_expected(third, left, &wanted) ? 0 : 1;
}
