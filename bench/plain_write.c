/*
 * Writes a sheet as a record: judges the shape of the whole sheet, then its values, which also says
 * how long the record is, and only then goes through the sheet a third time and writes. Each walk
 * trusts the one before it and tests nothing again.
 */
#include "plain.h"

enum { FIELD_HEAD = 3, LINE_ENDS = 12, MOST_CODES = 255, MOST_VIEWS = 255 };

/* The fields of a sheet that are still to come: where the next one starts, and their bytes. */
typedef struct {
    const uint8_t *at;
    size_t left;
} fields;

/* ---- 21: tag, order and length of the fields ---- */

static inline int is_length(unsigned tag, size_t length)
{
    switch (tag) {
    case TAG_RECORD:
        return length == 9;
    case TAG_VIEW:
        return length == VIEW_HEADER - 2;
    case TAG_LINE:
        return length >= LINE_ENDS && length <= LINE_ENDS + MOST_CODES;
    case TAG_INDEX:
        return length == 1;
    case TAG_LIST:
        return length % 2 == 0;
    default:
        return length >= 2;
    }
}

/* Whether the next field has this tag, is whole and has a length that the tag allows; only then it
 * is passed. A field that nothing passes stands where a view must start, and is refused there. */
static inline int pass(fields *rest, unsigned tag)
{
    size_t length;
    if (rest->left < FIELD_HEAD || rest->at[0] != tag)
        return 0;
    length = plain_two_bytes(rest->at + 1);
    if (length > rest->left - FIELD_HEAD || !is_length(tag, length))
        return 0;
    rest->at += FIELD_HEAD + length;
    rest->left -= FIELD_HEAD + length;
    return 1;
}

/* Passes the fields with this tag that follow one another, and counts them. */
static inline size_t pass_all(fields *rest, unsigned tag)
{
    size_t count = 0;
    while (pass(rest, tag))
        count++;
    return count;
}

static int pass_view(fields *rest)
{
    size_t lines;
    if (!pass(rest, TAG_VIEW))
        return 0;
    lines = pass_all(rest, TAG_LINE);
    if (lines > MOST_LINES)
        return 0;
    if (pass(rest, TAG_INDEX) && pass_all(rest, TAG_LIST) != lines)
        return 0;
    pass_all(rest, TAG_SEGMENT);
    return 1;
}

/* How many views the sheet has; 0 if it does not have its fields as it must. */
static uint32_t count_views(fields rest)
{
    uint32_t views = 0;
    if (!pass(&rest, TAG_RECORD))
        return 0;
    for (; rest.left > 0; views++)
        if (views == MOST_VIEWS || !pass_view(&rest))
            return 0;
    return views;
}

/* ---- behind 21: fields that are known to be right ---- */

static inline int next_is(const fields *rest, unsigned tag)
{
    return rest->left > 0 && rest->at[0] == tag;
}

/* The value of the next field, which is passed. */
static inline plain_block take_value(fields *rest)
{
    const plain_block value = plain_block_at(rest->at + 1);
    rest->at += FIELD_HEAD + value.length;
    rest->left -= FIELD_HEAD + value.length;
    return value;
}

/* ---- 22: the values; 19: the length ---- */

/* A judged sheet: its count of views, its widths, and how long its record is. */
typedef struct {
    uint32_t views;
    unsigned c, b, k;
    unsigned end_bits; /* of a line's start or end: type, direction, x, y */
    size_t record_length;
} judged_sheet;

/* A line's start or end. */
static int is_end(const uint8_t *end, const judged_sheet *sheet)
{
    return end[0] <= 3 && end[1] >> sheet->b == 0 && plain_two_bytes(end + 2) >> sheet->c == 0
        && plain_two_bytes(end + 4) >> sheet->c == 0;
}

static int judge_lines(fields *rest, judged_sheet *sheet)
{
    size_t bits = 0;
    while (next_is(rest, TAG_LINE)) {
        const plain_block line = take_value(rest);
        const size_t codes = line.length - LINE_ENDS;
        if (!is_end(line.bytes, sheet) || !is_end(line.bytes + LINE_ENDS / 2, sheet))
            return 0;
        if (!plain_each_fits(line.bytes + LINE_ENDS, codes, sheet->k, 1))
            return 0;
        bits += 2 * sheet->end_bits + COUNT_OF_CODES + codes * sheet->k;
    }
    sheet->record_length += plain_whole_bytes(bits);
    return 1;
}

/* A line's neighbours, from the line downwards: their count and the differences fit w bits, and
 * only the first difference may be 0. Where a neighbour is above what stands before it, the
 * difference wraps around and is too wide for any w. */
static int are_neighbours(plain_block list, unsigned w, uint32_t line)
{
    const uint8_t *end = plain_block_end(list);
    uint32_t before = line;
    if (list.length / 2 >> w != 0)
        return 0;
    for (const uint8_t *at = list.bytes; at < end; at += 2) {
        const uint32_t neighbour = plain_two_bytes(at), difference = before - neighbour;
        if (difference >> w != 0 || (difference == 0 && at > list.bytes))
            return 0;
        before = neighbour;
    }
    return 1;
}

static int judge_index(fields *rest, judged_sheet *sheet)
{
    const unsigned w = *take_value(rest).bytes;
    size_t numbers = 0; /* counts and differences */
    if (w < 1 || w > 16)
        return 0;
    for (uint32_t line = 0; next_is(rest, TAG_LIST); line++) {
        const plain_block list = take_value(rest);
        if (!are_neighbours(list, w, line))
            return 0;
        numbers += 1 + list.length / 2;
    }
    sheet->record_length += 1 + plain_whole_bytes(numbers * w);
    return 1;
}

static int judge_view(fields *rest, judged_sheet *sheet, uint8_t *seen)
{
    if (plain_right_values(take_value(rest).bytes, seen) < VIEW_VALUES)
        return 0;
    if (!judge_lines(rest, sheet))
        return 0;
    if (next_is(rest, TAG_INDEX) && !judge_index(rest, sheet))
        return 0;
    while (next_is(rest, TAG_SEGMENT))
        sheet->record_length += SEGMENT_HEADER - 2 + take_value(rest).length;
    sheet->record_length += VIEW_HEADER + 2 + 2; /* the lengths of index and extended block */
    return 1;
}

static int judge_values(fields rest, judged_sheet *sheet)
{
    uint8_t seen[POSITIONS] = {0};
    const uint8_t *scale = take_value(&rest).bytes + 2;
    if (plain_right_scale(scale) < SCALE)
        return 0;
    sheet->c = scale[1];
    sheet->b = scale[2];
    sheet->k = scale[3];
    sheet->end_bits = 2 + sheet->b + 2 * sheet->c;
    sheet->record_length = HEADER;
    while (rest.left > 0)
        if (!judge_view(&rest, sheet, seen))
            return 0;
    return 1;
}

/* ---- the record ---- */

static inline void put_end(plain_writer *to, const uint8_t *end, const judged_sheet *sheet)
{
    plain_put(to, 2 + sheet->b, (uint32_t)end[0] << sheet->b | end[1]);
    plain_put(to, 2 * sheet->c, plain_two_bytes(end + 2) << sheet->c | plain_two_bytes(end + 4));
}

/* Every writer of a block gives the place behind it. */

static uint8_t *put_lines(uint8_t *out, fields *rest, const judged_sheet *sheet)
{
    plain_writer to = {out, 0, 0};
    while (next_is(rest, TAG_LINE)) {
        const plain_block line = take_value(rest);
        const size_t codes = line.length - LINE_ENDS;
        put_end(&to, line.bytes, sheet);
        plain_put(&to, COUNT_OF_CODES, (uint32_t)codes);
        plain_put_each(&to, sheet->k, line.bytes + LINE_ENDS, codes);
        put_end(&to, line.bytes + LINE_ENDS / 2, sheet);
    }
    return plain_put_rest(to);
}

static uint8_t *put_index(uint8_t *out, fields *rest)
{
    plain_writer to = {out, 0, 0};
    unsigned w;
    if (!next_is(rest, TAG_INDEX))
        return out;
    w = *take_value(rest).bytes;
    plain_put(&to, 8, w);
    for (uint32_t line = 0; next_is(rest, TAG_LIST); line++) {
        const plain_block list = take_value(rest);
        uint32_t before = line;
        plain_put(&to, w, (uint32_t)(list.length / 2));
        for (const uint8_t *at = list.bytes; at < plain_block_end(list); at += 2) {
            const uint32_t neighbour = plain_two_bytes(at);
            plain_put(&to, w, before - neighbour);
            before = neighbour;
        }
    }
    return plain_put_rest(to);
}

static uint8_t *put_segments(uint8_t *out, fields *rest)
{
    while (next_is(rest, TAG_SEGMENT)) {
        const plain_block segment = take_value(rest);
        const size_t payload = segment.length - 2;
        out = plain_put_bytes(out, segment.bytes, 2);
        out = plain_put_two_bytes(out, (uint32_t)(SEGMENT_HEADER + payload));
        out = plain_put_bytes(out, segment.bytes + 2, payload);
    }
    return out;
}

/* Fills in the length field of the block that was written behind it, up to `end`. */
static uint8_t *end_block(uint8_t *length_field, uint8_t *end)
{
    plain_put_two_bytes(length_field, (uint32_t)(end - length_field - 2));
    return end;
}

static uint8_t *put_view(uint8_t *out, fields *rest, const judged_sheet *sheet)
{
    out = plain_put_bytes(out, take_value(rest).bytes, VIEW_HEADER - 2);
    out = end_block(out, put_lines(out + 2, rest, sheet));
    out = end_block(out, put_index(out + 2, rest));
    return end_block(out, put_segments(out + 2, rest));
}

static void put_record(uint8_t *out, fields rest, const judged_sheet *sheet)
{
    const uint8_t *header = take_value(&rest).bytes;
    out = plain_put_header(out, sheet->record_length, header, sheet->views, header + 2);
    while (rest.left > 0)
        out = put_view(out, &rest, sheet);
}

fsk_answer plain_write(const uint8_t *sheet, size_t sheet_length, uint8_t *record,
                       size_t record_length)
{
    const fields all = {sheet, sheet_length};
    judged_sheet judged;
    fsk_answer refusal;
    judged.views = count_views(all);
    if (judged.views == 0)
        return plain_refused(BAD_SHEET);
    if (!judge_values(all, &judged))
        return plain_refused(BAD_VALUE);
    refusal = plain_judge_length(judged.record_length, record_length);
    if (refusal.number != 0)
        return refusal;
    put_record(record, all, &judged);
    return plain_accepted(judged.record_length);
}
