/*
 * The enrolment desk's corrections: corrections FILE FINGER NUMBER ORDER.. joins and parts lines of a view, all in one call.
 * FINGER and NUMBER name the view (fingers.h says how). An ORDER is two lines with + between them, which joins them, or with -,
 * which parts them: 2+0 or 3-1. Lines are counted from 0. Where an order of the list is refused, it is left out, and the list is
 * given again. Which lines are neighbours is printed as it was and as it is in the new record; then the same orders are given
 * singly, which gives the same record. The exit status is 1 where the record, the view or the whole list is refused, and 2 where
 * the arguments are wrong or the file cannot be read.
 */
#include <string.h>

#include "fields.h"

enum { ORDER = 6, MOST_ORDERS = 100 }; /* ORDER: its bytes */

/* As fsk_pairs takes it: for each order 0 for join or 1 for part, then two lines, two bytes each, high byte first. */
typedef struct {
    uint8_t orders[ORDER * MOST_ORDERS];
    size_t length;
} list;

static uint8_t record[MOST_RECORD + 1], second[MOST_RECORD], singly[2][MOST_RECORD], sheet[MOST_SHEET];
static list pairs;

/* Whether the text is an order and there is room for it. The list then has it. */
static int add_order(const char *text)
{
    uint8_t *order = pairs.orders + pairs.length;
    uint32_t line, other;
    if (pairs.length == sizeof pairs.orders || !take_number(&text, UINT16_MAX, &line) || (*text != '+' && *text != '-'))
        return 0;
    const int parts = *text++ == '-';
    if (!take_number(&text, UINT16_MAX, &other) || *text != '\0')
        return 0;
    put_two_bytes(put_two_bytes(put_two_bytes(order, (uint32_t)parts), line), other);
    pairs.length += ORDER;
    return 1;
}

/* Whether the arguments are a file, a view and orders. `view` and the list then have them. */
static int are_right(int count, char **arguments, view_name *view)
{
    if (count < 5 || !is_name(arguments + 2, view))
        return 0;
    for (int i = 4; i < count; i++)
        if (!add_order(arguments[i]))
            return 0;
    return 1;
}

/* Says which lines of a view are neighbours, and gives how many lines it has. Of a view that is not there it says nothing. */
static uint32_t print_neighbours(fields left, view_name view)
{
    uint32_t lines = 0, printed = 0;
    if (!find_view(&left, view))
        return 0;
    for (take(&left); comes(&left, LINE); lines++)
        take(&left);
    print_name(view);
    printf(", lines %u, neighbours:", (unsigned)lines);
    if (comes(&left, INDEX))
        take(&left);
    for (uint32_t line = 0; comes(&left, NEIGHBOURS); line++) {
        const field neighbours = take(&left);
        for (size_t i = 0; i < neighbours.length; i += 2)
            printf("%s %u and %u", printed++ == 0 ? "" : ",", (unsigned)line, two_bytes(neighbours.value + i));
    }
    puts(printed == 0 ? " none" : "");
    return lines;
}

/* Gives the whole list. */
static fsk_answer give(size_t length, view_name view, uint32_t lines)
{
    return fsk_pairs(record, length, view.finger, view.number, lines, pairs.orders, pairs.length, second, sizeof second);
}

/* Whether the number is about one order of the list, which the answer's place then tells. */
static int is_of_an_order(uint32_t number)
{
    return number == FSK_BAD_LINES || number == FSK_ALREADY_SO || number == FSK_TOO_LONG || number == FSK_NO_ROOM;
}

/* Says why an order is refused, and takes it out of the list. */
static void leave_out(fsk_answer refusal)
{
    uint8_t *order = pairs.orders + ORDER * (size_t)refusal.place, *behind = order + ORDER;
    printf("order %u of the list, %s %u and %u: ", (unsigned)refusal.place, order[1] == 0 ? "join" : "part", two_bytes(order + 2),
           two_bytes(order + 4));
    explain(refusal);
    memmove(order, behind, (size_t)(pairs.orders + pairs.length - behind));
    pairs.length -= ORDER;
}

/* Gives the orders singly, each to the record that the one before left, and gives whether that makes the same record. */
static int is_same_singly(size_t length, view_name view, uint32_t lines, size_t new_length)
{
    const uint8_t *now = record;
    for (size_t i = 0; i < pairs.length; i += ORDER) {
        const uint8_t *order = pairs.orders + i;
        uint8_t *next = now == singly[0] ? singly[1] : singly[0];
        const fsk_answer answer = (order[1] == 0 ? fsk_join : fsk_part)(now, length, view.finger, view.number, lines,
                                                                        two_bytes(order + 2), two_bytes(order + 4), next,
                                                                        MOST_RECORD);
        if (answer.number != FSK_ACCEPTED)
            return 0;
        now = next;
        length = answer.length;
    }
    return length == new_length && memcmp(now, second, length) == 0;
}

int main(int count, char **arguments)
{
    view_name view;
    if (!are_right(count, arguments, &view)) {
        fputs("usage: corrections FILE FINGER NUMBER ORDER.., where an ORDER is LINE+LINE or LINE-LINE\n", stderr);
        return 2;
    }
    const long length = load(arguments[1], record);
    if (length < 0)
        return 2;
    const fsk_answer read = fsk_read(record, (size_t)length, sheet, sizeof sheet);
    if (read.number != FSK_ACCEPTED) {
        explain(read);
        return 1;
    }
    const uint32_t lines = print_neighbours((fields){sheet, sheet + read.length}, view);

    fsk_answer answer = give((size_t)length, view, lines);
    for (; is_of_an_order(answer.number); answer = give((size_t)length, view, lines))
        leave_out(answer);
    if (answer.number != FSK_ACCEPTED) {
        explain(answer);
        return 1;
    }
    printf("accepted, orders %zu: a new record of %zu bytes, the old one has %ld\n", pairs.length / ORDER, answer.length, length);
    const fsk_answer again = fsk_read(second, answer.length, sheet, sizeof sheet);
    print_neighbours((fields){sheet, sheet + again.length}, view);
    const int same = is_same_singly((size_t)length, view, lines, answer.length);
    printf("given singly, the same orders make %s record, byte for byte\n", same ? "the same" : "another");
    return same ? 0 : 1;
}
