/*
 * The terminal's job: terminal FILE [FINGER NUMBER] [CODES] takes the poor lines out of a record, those with fewer than CODES
 * codes (2 if not said). FINGER and NUMBER name the view that they are taken out of (fingers.h says how); if not said, it is every
 * view. Each view gets one removal; and because jobs do run twice, the very same removal is then run again. The exit status is 1
 * where the record, the view or a removal is refused, and 2 where the arguments are wrong or the file cannot be read.
 */
#include <string.h>

#include "fields.h"

/* What the arguments say. */
typedef struct {
    const char *file;
    int has_name;
    view_name view; /* that name, if there is one */
    uint32_t least_codes;
} job;

/* The removal of the poor lines of a view, made for the number of lines that the view has. */
typedef struct {
    view_name view;
    uint32_t count;
    uint8_t lines[2 * MOST_LINES]; /* as fsk_remove takes them: two bytes each, high byte first */
    size_t length;
} removal;

/* The record that holds, and the buffer that an order may write the next one to. */
typedef struct {
    uint8_t *record, *second;
    size_t length;
} state;

static uint8_t buffers[2][MOST_RECORD + 1], before[MOST_RECORD], sheet[MOST_SHEET];

/* Whether the arguments are right: their count says which of them are there. `wanted` then has them. */
static int is_job(int count, char **arguments, job *wanted)
{
    const int has_codes = count == 3 || count == 5;
    if (count < 2 || count > 5)
        return 0;
    *wanted = (job){.file = arguments[1], .has_name = count >= 4, .least_codes = 2};
    if (wanted->has_name && !is_name(arguments + 2, &wanted->view))
        return 0;
    return !has_codes || is_number(arguments[count - 1], UINT32_MAX, &wanted->least_codes);
}

/* The removal for the view that comes next in the sheet, which is then passed. */
static removal plan(fields *left, uint32_t least_codes)
{
    removal order = {.view = name_of(take(left))};
    for (; comes(left, LINE); order.count++) {
        if (codes_of(take(left)) < least_codes) {
            order.lines[order.length++] = (uint8_t)(order.count >> 8);
            order.lines[order.length++] = (uint8_t)order.count;
        }
    }
    while (left->at < left->end && !comes(left, VIEW))
        take(left);
    return order;
}

/* Runs the removal; which record holds then, fsk_holds says. */
static fsk_answer run(const removal *order, state *now)
{
    const fsk_answer removed = fsk_remove(now->record, now->length, order->view.finger, order->view.number, order->count,
                                          order->lines, order->length, now->second, MOST_RECORD);
    const fsk_held held = fsk_holds(now->record, now->length, now->second, MOST_RECORD, removed.number, removed.length);
    if (held.second) {
        uint8_t *old = now->record;
        now->record = now->second;
        now->second = old;
    }
    now->length = held.length;
    return removed;
}

/* Runs the removal and says what came of it: whether it was accepted, and which record holds now. */
static uint32_t run_in_words(const char *when, const removal *order, state *now)
{
    const size_t length = now->length;
    memcpy(before, now->record, length);
    const fsk_answer removed = run(order, now);
    printf("  %s: ", when);
    if (removed.number != FSK_ACCEPTED)
        explain(removed);
    else
        puts("the lines are removed");
    if (now->length == length && memcmp(now->record, before, length) == 0)
        printf("    the record is as it was, %zu bytes\n", length);
    else
        printf("    a new record holds, %zu bytes instead of %zu\n", now->length, length);
    return removed.number;
}

/* Runs a view's removal twice, if there is a line to remove. Gives whether it was accepted the first time. */
static int run_twice(const removal *order, uint32_t least_codes, state *now)
{
    print_name(order->view);
    printf(": %zu of %u lines have fewer than %u codes\n", order->length / 2, (unsigned)order->count, (unsigned)least_codes);
    if (order->length == 0)
        return 1;
    const uint32_t number = run_in_words("removal", order, now);
    run_in_words("the same again", order, now);
    return number == FSK_ACCEPTED;
}

int main(int count, char **arguments)
{
    job wanted;
    if (!is_job(count, arguments, &wanted)) {
        fputs("usage: terminal FILE [FINGER NUMBER] [CODES]\n", stderr);
        return 2;
    }
    const long length = load(wanted.file, buffers[0]);
    if (length < 0)
        return 2;
    state now = {buffers[0], buffers[1], (size_t)length};
    const fsk_answer read = fsk_read(now.record, now.length, sheet, sizeof sheet);
    if (read.number != FSK_ACCEPTED) {
        explain(read);
        return 1;
    }

    /* The sheet stays that of the record before all removals. That is enough: none of them changes another view. */
    fields left = {sheet, sheet + read.length};
    int status = 0;
    if (!wanted.has_name) {
        take(&left);
    } else if (!find_view(&left, wanted.view)) {
        const removal of_no_view = {.view = wanted.view};
        explain(run(&of_no_view, &now)); /* with 13, whatever else it lacks */
        return 1;
    }
    do {
        const removal order = plan(&left, wanted.least_codes);
        if (!run_twice(&order, wanted.least_codes, &now))
            status = 1;
    } while (!wanted.has_name && comes(&left, VIEW));
    printf("the record has %zu bytes, before it had %ld\n", now.length, length);
    return status;
}
