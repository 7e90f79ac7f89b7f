/*
 * What the examples need: a record from a file and to a file, a walk over the fields of its sheet, and a refusal in words; fingers.h
 * has the names of views. A sheet that fsk_read gave is whole and in order (fsk.h says in which), so the walk tests nothing.
 */
#ifndef FIELDS_H
#define FIELDS_H

#include <fsk.h>
#include <stdio.h>
#include <string.h>

#include "fingers.h"

enum {
    MOST_RECORD = 32768,
    MOST_SHEET = 7 * MOST_RECORD, /* suffices for any record: fsk.h, at fsk_read */
    MOST_LINES = 1024
};

enum { HEADER = 1, VIEW, LINE, INDEX, NEIGHBOURS, SEGMENT }; /* the tags */

typedef struct {
    size_t length;
    const uint8_t *value;
} field;

/* What is left of a sheet. */
typedef struct {
    const uint8_t *at, *end;
} fields;

static inline unsigned two_bytes(const uint8_t *bytes)
{
    return (unsigned)(bytes[0] << 8 | bytes[1]);
}

/* Gives the place behind them. */
static inline uint8_t *put_two_bytes(uint8_t *bytes, uint32_t number)
{
    bytes[0] = (uint8_t)(number >> 8);
    bytes[1] = (uint8_t)number;
    return bytes + 2;
}

/* Whether a field with this tag comes next. */
static inline int comes(const fields *left, unsigned tag)
{
    return left->at < left->end && *left->at == tag;
}

/* The next field, which stays. */
static inline field peek(const fields *left)
{
    return (field){two_bytes(left->at + 1), left->at + 3};
}

/* The next field, which is then passed. */
static inline field take(fields *left)
{
    const field taken = peek(left);
    left->at = taken.value + taken.length;
    return taken;
}

/* A view's name: its field has the number first. */
static inline view_name name_of(field view)
{
    return (view_name){.finger = view.value[1], .number = view.value[0]};
}

/* Passes what stands before a view. Gives whether the view is there; if not, all is passed. */
static inline int find_view(fields *left, view_name wanted)
{
    for (; left->at < left->end; take(left))
        if (comes(left, VIEW) && is_same(name_of(peek(left)), wanted))
            return 1;
    return 0;
}

/* How many codes a line has: they stand behind its two ends of 6 bytes each. */
static inline size_t codes_of(field line)
{
    return line.length - 12;
}

/* Reads a file of at most `room` bytes, or its first ones, and gives how many; -1, after a word about it, if it cannot be read. */
static inline long load_bytes(const char *file, uint8_t *bytes, size_t room)
{
    FILE *stream = fopen(file, "rb");
    long length = -1;
    if (stream != NULL) {
        length = (long)fread(bytes, 1, room, stream);
        if (ferror(stream))
            length = -1;
        fclose(stream);
    }
    if (length < 0)
        perror(file);
    return length;
}

/* The same of a record. The buffer has a byte more than a record, so that the library gets to see that a file is too long. */
static inline long load(const char *file, uint8_t record[MOST_RECORD + 1])
{
    return load_bytes(file, record, MOST_RECORD + 1);
}

/* Writes bytes to a file. Gives the exit status, which is 2, after a word about it, if that cannot be done. */
static inline int save(const char *file, const uint8_t *bytes, size_t length)
{
    FILE *stream = fopen(file, "wb");
    int saved = stream != NULL && fwrite(bytes, 1, length, stream) == length;
    if (stream != NULL && fclose(stream) != 0)
        saved = 0;
    if (!saved)
        perror(file);
    return saved ? 0 : 2;
}

/* Says why a call refused, where in the record or object, if the number has a place, and what can be done about it. */
static inline void explain(fsk_answer refusal)
{
    const unsigned number = refusal.number, place = refusal.place;
    const char *where = fsk_where(number);
    if (*where == '\0')
        printf("refused %u: %s\n", number, fsk_text(number));
    else
        printf("refused %u at byte %u, bit %u: %s\n    %s\n", number, place / 8, place % 8, fsk_text(number), where);
    printf("    %s\n", fsk_advice(number));
}

/* Whether a call refused. If so, says why. */
static inline int refused(fsk_answer answer)
{
    if (answer.number != FSK_ACCEPTED)
        explain(answer);
    return answer.number != FSK_ACCEPTED;
}

static inline int same(const uint8_t *one, size_t one_length, const uint8_t *other, size_t other_length)
{
    return one_length == other_length && memcmp(one, other, one_length) == 0;
}

#endif
