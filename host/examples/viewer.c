/*
 * Prints what a record says, in words: viewer FILE. The record is read as a sheet, and the sheet gone through from its first field to
 * its last. The exit status is 1 where the record is refused, and 2 where there is no file to read.
 */
#include "fields.h"

static const char *const end_types[] = {"imaginary end", "ridge end", "bifurcation", "imaginary continuation"};

static uint8_t record[MOST_RECORD + 1], sheet[MOST_SHEET];

static void print_header(field header)
{
    const uint8_t *v = header.value;
    const unsigned first = two_bytes(v);
    printf("certificates %u, device %u, points per cm %u\n", first >> 12, first & 0xFFF, v[2]);
    printf("bits of a coordinate %u, of a direction %u, of a code %u\n", v[3], v[4], v[5]);
    printf("straight step %u, perpendicular over straight step %u/256, directions in a half turn %u\n", v[6], v[7], v[8]);
}

/* Where a line starts or ends, and how. */
static void print_end(const uint8_t *end)
{
    printf("%s at %u, %u, direction %u", end_types[end[0]], two_bytes(end + 2), two_bytes(end + 4), end[1]);
}

static void print_line(unsigned number, field line)
{
    printf("  line %u: ", number);
    print_end(line.value);
    printf("; codes %zu; ", codes_of(line));
    print_end(line.value + 6);
    puts("");
}

/* Being neighbours is mutual, and the list of the higher line has it: an empty list does not say that a line has no neighbour. */
static void print_neighbours(unsigned line, field neighbours)
{
    if (neighbours.length == 0)
        return;
    printf("  line %u is next to", line);
    for (size_t i = 0; i < neighbours.length; i += 2)
        printf(" %u", two_bytes(neighbours.value + i));
    puts("");
}

static void print_view(fields *left)
{
    const field view = take(left);
    const uint8_t *v = view.value;
    unsigned lines = 0;
    print_name(name_of(view));
    printf(": impression %u, quality %u, width %u, height %u\n", v[2], v[3], two_bytes(v + 4), two_bytes(v + 6));
    while (comes(left, LINE))
        print_line(lines++, take(left));
    if (comes(left, INDEX)) {
        printf("  index of width %u\n", take(left).value[0]);
        for (unsigned line = 0; line < lines; line++)
            print_neighbours(line, take(left));
    } else {
        puts("  no index");
    }
    for (unsigned segment = 0; comes(left, SEGMENT); segment++) {
        const field s = take(left);
        printf("  segment %u: type %u, payload bytes %zu\n", segment, two_bytes(s.value), s.length - 2);
    }
}

int main(int count, char **arguments)
{
    if (count != 2) {
        fputs("usage: viewer FILE\n", stderr);
        return 2;
    }
    const long length = load(arguments[1], record);
    if (length < 0)
        return 2;
    const fsk_answer read = fsk_read(record, (size_t)length, sheet, sizeof sheet);
    if (read.number != FSK_ACCEPTED) {
        explain(read);
        return 1;
    }
    fields left = {sheet, sheet + read.length};
    printf("record of %ld bytes, its sheet has %zu\n", length, read.length);
    print_header(take(&left));
    while (comes(&left, VIEW))
        print_view(&left);
    return 0;
}
