/*
 * How the examples name a view: by its finger and its number. On the command line that is FINGER NUMBER, two arguments. FINGER is
 * the finger's name as the listing prints it (in quotes for the shell: "right index") or its finger position; NUMBER is counted
 * from 0. Which views a record has, the library says: all numbers of 32 bits are passed on to it. The other numbers on a command
 * line are read here too.
 */
#ifndef FINGERS_H
#define FINGERS_H

#include <stdint.h>
#include <stdio.h>
#include <stdlib.h>
#include <string.h>

/* The two numbers that name a view: fsk.h, at the top. */
typedef struct {
    uint32_t finger, number;
} view_name;

static const char *const fingers[] = {
    "unknown",    "right thumb", "right index", "right middle", "right ring",  "right little",
    "left thumb", "left index",  "left middle", "left ring",    "left little",
};

enum { FINGERS = sizeof fingers / sizeof *fingers };

static inline int is_same(view_name one, view_name other)
{
    return one.finger == other.finger && one.number == other.number;
}

/* Prints the name of a view that a record has, as the listing does: right index 0. */
static inline void print_name(view_name view)
{
    printf("%s %u", fingers[view.finger], (unsigned)view.number);
}

/* Whether a number stands here, in digits and at most `most`. `number` then has it, and the text goes on behind it. */
static inline int take_number(const char **text, unsigned long most, uint32_t *number)
{
    const size_t digits = strspn(*text, "0123456789");
    const unsigned long value = strtoul(*text, NULL, 10);
    *number = (uint32_t)value;
    *text += digits;
    return digits > 0 && value <= most;
}

/* Whether the text is such a number and nothing else. */
static inline int is_number(const char *text, unsigned long most, uint32_t *number)
{
    return take_number(&text, most, number) && *text == '\0';
}

/* Whether the text is one of so many names or a number. `number` then has that, or the name's place among the names. */
static inline int is_named(const char *text, const char *const *names, uint32_t count, uint32_t *number)
{
    for (uint32_t place = 0; place < count; place++) {
        if (strcmp(text, names[place]) == 0) {
            *number = place;
            return 1;
        }
    }
    return is_number(text, UINT32_MAX, number);
}

/* Whether the two texts are FINGER NUMBER. `view` then has the name. */
static inline int is_name(char **texts, view_name *view)
{
    return is_named(texts[0], fingers, FINGERS, &view->finger) && is_number(texts[1], UINT32_MAX, &view->number);
}

#endif
