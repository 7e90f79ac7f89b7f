/*
 * The calls of fsk.h once more, written by hand in C and without proofs: what the library is
 * measured against. Signatures and answers, the place of a refusal too, are the host's, with the
 * prefix plain_. Behind the calls stands what the plain files share: numbers, limits and tags, a
 * view's name, a block behind its length, the judge, refusals 13, 19 and 20, a record's header, and
 * what a new record takes over from an old one.
 */
#ifndef PLAIN_H
#define PLAIN_H

#include "fsk.h"
#include "plain_fields.h"

fsk_answer plain_read(const uint8_t *record, size_t record_length, uint8_t *sheet,
                      size_t sheet_length);
fsk_answer plain_write(const uint8_t *sheet, size_t sheet_length, uint8_t *record,
                       size_t record_length);
fsk_answer plain_check(uint32_t rule, const uint8_t *record, size_t record_length);
fsk_answer plain_trail(const uint8_t *record, size_t record_length, uint32_t finger,
                       uint32_t number, uint32_t line, uint8_t *trail, size_t trail_length);
fsk_answer plain_segment(const uint8_t *record, size_t record_length, uint32_t finger,
                         uint32_t number, uint32_t segment);
fsk_answer plain_quality(const uint8_t *record, size_t record_length, uint32_t finger,
                         uint32_t number, uint32_t segment, uint8_t *values,
                         size_t values_length);
fsk_answer plain_set_quality(const uint8_t *record, size_t record_length, uint32_t finger,
                             uint32_t number, uint32_t segment, const uint8_t *values,
                             size_t values_length, uint8_t *out, size_t out_length);
fsk_answer plain_pores(const uint8_t *record, size_t record_length, uint32_t finger,
                       uint32_t number, uint32_t segment, uint8_t *values, size_t values_length);
fsk_answer plain_set_pores(const uint8_t *record, size_t record_length, uint32_t finger,
                           uint32_t number, uint32_t segment, const uint8_t *values,
                           size_t values_length, uint8_t *out, size_t out_length);
fsk_answer plain_card_read(uint32_t size, const uint8_t *object, size_t object_length,
                           uint8_t *record, size_t record_length);
fsk_answer plain_card_write(uint32_t size, const uint8_t *record, size_t record_length,
                            uint32_t finger, uint32_t number, uint8_t *object,
                            size_t object_length);
fsk_answer plain_low_bytes(const uint8_t *run, size_t run_length, uint8_t *bytes,
                           size_t bytes_length);
fsk_answer plain_from_low_bytes(const uint8_t *bytes, size_t bytes_length, uint8_t *run,
                                size_t run_length);
fsk_answer plain_remove(const uint8_t *record, size_t record_length, uint32_t finger,
                        uint32_t number, uint32_t count, const uint8_t *lines,
                        size_t lines_length, uint8_t *out, size_t out_length);
fsk_answer plain_join(const uint8_t *record, size_t record_length, uint32_t finger,
                      uint32_t number, uint32_t count, uint32_t first, uint32_t second,
                      uint8_t *out, size_t out_length);
fsk_answer plain_part(const uint8_t *record, size_t record_length, uint32_t finger,
                      uint32_t number, uint32_t count, uint32_t first, uint32_t second,
                      uint8_t *out, size_t out_length);
fsk_answer plain_pairs(const uint8_t *record, size_t record_length, uint32_t finger,
                       uint32_t number, uint32_t count, const uint8_t *pairs,
                       size_t pairs_length, uint8_t *out, size_t out_length);
fsk_held plain_holds(const uint8_t *old, size_t old_length, const uint8_t *second,
                     size_t second_length, uint32_t number, size_t length);

/* Refusals as document 01 and its requests number them. */
enum {
    BAD_SIZE = 1,
    BAD_IDENTIFIER = 2,
    BAD_VERSION = 3,
    BAD_LENGTH = 4,
    BAD_HEADER = 5,
    PAST_END = 6,
    BAD_VIEW = 7,
    BAD_LINE = 8,
    TOO_MANY_LINES = 9,
    BAD_INDEX = 10,
    BAD_SEGMENT = 11,
    BYTES_OVER = 12,
    NO_VIEW = 13,
    OTHER_COUNT = 14,
    NO_LINE = 15,
    OTHER_SEGMENT = 16,
    NO_INDEX = 17,
    WRONG_PAIR = 18,
    TOO_LONG = 19,
    NO_ROOM = 20,
    BAD_SHEET = 21,
    BAD_VALUE = 22,
    NO_SEGMENT = 23,
    BAD_QUALITY = 24,
    BAD_PAIRS = 25,
    BAD_PORES = 26,
    BAD_OBJECT = 27,
    OTHER_SCALE = 28,
    BAD_RUN = 29,
    NO_RULE = 30,
    BELOW_RULE = 31
};

enum { LARGEST_RECORD = 32768, MOST_LINES = 1024, POSITIONS = 11 };

/* The card's sizes: 0 normal, 1 compact. */
enum { SIZES = 2 };

/* The types of the segments that are not just carried. */
enum { LOCAL_QUALITY = 0x0003, SWEAT_PORES = 0x0004 };

/* The sheet's tags. */
enum {
    TAG_RECORD = 1,
    TAG_VIEW = 2,
    TAG_LINE = 3,
    TAG_INDEX = 4,
    TAG_LIST = 5,
    TAG_SEGMENT = 6
};

/* Sizes: bytes, but for the last, which counts bits. */
enum {
    HEADER = 24,
    SCALE = 7,
    VIEW_HEADER = 10,
    VIEW_VALUES = 4,
    SEGMENT_HEADER = 4,
    QUALITY_HEADER = 3,
    PORES_HEADER = 3,
    PAIR_ORDER = 6,
    COUNT_OF_CODES = 8
};

/* The answer of a call that wrote so many elements, or of a judge that refuses nothing: 0. */
static inline fsk_answer plain_accepted(size_t length)
{
    return (fsk_answer){0, 0, length};
}

/* A refusal that has no place in the record: 1, or above 12. */
static inline fsk_answer plain_refused(uint32_t number)
{
    return (fsk_answer){number, 0, 0};
}

/* A view's name: its finger position and its number among the views of that finger. A record has
 * each name once; a caller may ask for any two numbers. */
typedef struct {
    uint32_t finger, number;
} plain_name;

/* The name of the view whose header starts here. */
static inline plain_name plain_name_at(const uint8_t *header)
{
    return (plain_name){.finger = header[1], .number = header[0]};
}

/* Some bytes: a block of a view (skeleton, index or extended), a payload, a value. */
typedef struct {
    const uint8_t *bytes;
    size_t length;
} plain_block;

/* The block behind the length field that stands here. */
static inline plain_block plain_block_at(const uint8_t *length_field)
{
    return (plain_block){length_field + 2, plain_two_bytes(length_field)};
}

static inline const uint8_t *plain_block_end(plain_block block)
{
    return block.bytes + block.length;
}

/* Whether the last `left` bits, 0 to 7, are zero. */
static inline int plain_is_padding(plain_block block, size_t left)
{
    return left == 0 || (plain_block_end(block)[-1] & ((1u << left) - 1)) == 0;
}

/* How many codes the line has that starts at this bit of a skeleton. */
static inline uint32_t plain_codes(const uint8_t *skeleton, size_t bit, unsigned end_bits)
{
    plain_reader reader = plain_reader_at(skeleton, bit + end_bits);
    return plain_take(&reader, COUNT_OF_CODES);
}

/* How many bits that line has. */
static inline size_t plain_line_bits(const uint8_t *skeleton, size_t bit, unsigned end_bits,
                                     unsigned k)
{
    return 2 * end_bits + COUNT_OF_CODES + (size_t)k * plain_codes(skeleton, bit, end_bits);
}

/* A judged view. */
typedef struct {
    plain_block skeleton, index, extended;
    uint32_t lines;
} plain_view;

/* A judged record: its widths, how long its sheet is, whether it has the view that was asked for,
 * and that view. */
typedef struct {
    const uint8_t *bytes, *end;
    uint32_t views;
    unsigned c, b, k;
    unsigned end_bits; /* of a line's start or end: type, direction, x, y */
    size_t sheet_length;
    int has_view;
    plain_view view;
} plain_record;

/* Takes the widths from record bytes 15 to 21. */
static inline void plain_set_widths(plain_record *record, const uint8_t *scale)
{
    record->c = scale[1];
    record->b = scale[2];
    record->k = scale[3];
    record->end_bits = 2 + record->b + 2 * record->c;
}

/* Judges 1 to 12 and gives the refusal, its place too; its number is 0 if the record is accepted.
 * `record` then holds what is said above; its view only if it has the one with the wanted name. */
fsk_answer plain_judge(const uint8_t *bytes, size_t length, plain_name wanted,
                       plain_record *record);

/* The same, and 13 where the wanted view is not there. */
static inline fsk_answer plain_judge_view(const uint8_t *bytes, size_t length, plain_name wanted,
                                          plain_record *record)
{
    const fsk_answer refusal = plain_judge(bytes, length, wanted, record);
    if (refusal.number == 0 && !record->has_view)
        return plain_refused(NO_VIEW);
    return refusal;
}

/* Of record bytes 15 to 21, points per cm to N: how many stand before the first that is outside its
 * range; SCALE if none is. */
unsigned plain_right_scale(const uint8_t *bytes);

/* Of a view header's number, position, impression and quality: how many stand before the first that
 * is not allowed; VIEW_VALUES if all are allowed. `seen` counts the earlier views of each position;
 * the view is then counted too. */
unsigned plain_right_values(const uint8_t *header, uint8_t *seen);

/* Whether no segment of this extended block keeps lines from being removed by its type: each is one
 * of local quality or of pores. */
int plain_lets_lines_go(plain_block extended);

/* 19 and 20, of a new record with this length. */
static inline fsk_answer plain_judge_length(size_t length, size_t room)
{
    if (length > LARGEST_RECORD)
        return plain_refused(TOO_LONG);
    return length > room ? plain_refused(NO_ROOM) : plain_accepted(0);
}

/* A record's header: its length, bytes 12 and 13, the count of views and bytes 15 to 21. */
static inline uint8_t *plain_put_header(uint8_t *out, size_t length, const uint8_t *device,
                                        uint32_t views, const uint8_t *scale)
{
    memcpy(out, "FSK", 4);
    memcpy(out + 4, "010", 4);
    out = plain_put_four_bytes(out + 8, (uint32_t)length);
    out = plain_put_bytes(out, device, 2);
    *out++ = (uint8_t)views;
    out = plain_put_bytes(out, scale, SCALE);
    return plain_put_two_bytes(out, 0);
}

/* The old record's bytes before `end`, with the new record's length among them; gives the place
 * behind them. */
static inline uint8_t *plain_put_before(uint8_t *out, const plain_record *record,
                                        const uint8_t *end, size_t length)
{
    uint8_t *behind = plain_put_bytes(out, record->bytes, (size_t)(end - record->bytes));
    plain_put_two_bytes(out + 10, (uint32_t)length);
    return behind;
}

/* The old record's bytes from `start` on, which end the new record too. */
static inline void plain_put_behind(uint8_t *out, const plain_record *record, const uint8_t *start)
{
    plain_put_bytes(out, start, (size_t)(record->end - start));
}

#endif
