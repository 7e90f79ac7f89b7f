/*
 * Prints the rows of numbers.def in the form that its argument names: `man`, the table of the man page, or `enum`, what the enum of
 * fsk.h must have, one line for each row. So the man page is made from the rows, and `make check` holds fsk.h against them.
 */
#include <stdio.h>
#include <string.h>

static const struct {
    int number;
    const char *name, *text, *advice, *where;
} rows[] = {
#define FSK_NUMBER(number, name, text, advice, where) {number, #name, text, advice, where},
#include "numbers.def"
#undef FSK_NUMBER
};

int main(int count, char **arguments)
{
    const int enums = count == 2 && strcmp(arguments[1], "enum") == 0;
    if (!enums && !(count == 2 && strcmp(arguments[1], "man") == 0)) {
        fputs("usage: table man|enum\n", stderr);
        return 2;
    }
    for (size_t i = 0; i < sizeof rows / sizeof *rows; i++) {
        const char *space = *rows[i].where == '\0' ? "" : " ";
        if (enums)
            printf("FSK_%s = %d, /* %s%s%s */\n", rows[i].name, rows[i].number, rows[i].text, space, rows[i].where);
        else
            printf(".TP\n.BR %d \" FSK_%s\"\n%s%s%s\n.br\n.I \"%s\"\n", rows[i].number, rows[i].name, rows[i].text, space,
                   rows[i].where, rows[i].advice);
    }
    return 0;
}
