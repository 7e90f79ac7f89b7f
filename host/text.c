/*
 * Words for the numbers that a call answers: what each means, what to do about it, and what the answer's place is. They come from
 * numbers.def; if the rows there and the enum of fsk.h do not agree, this file does not compile.
 */
#include "fsk.h"

static const struct {
    const char *text, *advice, *where;
} numbers[] = {
#define FSK_NUMBER(number, name, text, advice, where) [number] = {text, advice, where},
#include "numbers.def"
#undef FSK_NUMBER
};

/* Where each row stands. If that is at the place of its number, none is missing and none is there twice. */
enum {
#define FSK_NUMBER(number, name, text, advice, where) ROW_OF_##name,
#include "numbers.def"
#undef FSK_NUMBER
};

#define FSK_NUMBER(number, name, text, advice, where)                                                       \
    _Static_assert(FSK_##name == (number), "FSK_" #name " has another number in fsk.h than in numbers.def"); \
    _Static_assert(ROW_OF_##name == (number), "a row before FSK_" #name " is missing in numbers.def");
#include "numbers.def"
#undef FSK_NUMBER

_Static_assert(sizeof numbers / sizeof *numbers == FSK_NUMBERS, "fsk.h has more or fewer numbers than numbers.def");

const char *fsk_text(uint32_t number)
{
    return number < FSK_NUMBERS ? numbers[number].text : "No call answers this number.";
}

const char *fsk_advice(uint32_t number)
{
    return number < FSK_NUMBERS ? numbers[number].advice : "Make sure that fsk.h and libfsk.a are of the same version.";
}

const char *fsk_where(uint32_t number)
{
    return number < FSK_NUMBERS ? numbers[number].where : "";
}
