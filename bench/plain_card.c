/*
 * The card's object, read as a record and written from one, and runs of start coordinates. From the
 * width on to the end of the index, an object has the bytes that a view has in a record, so these
 * are judged and then copied as they are.
 */
#include "plain_blocks.h"

/* The template's tag, and that of the view in it. */
enum { TEMPLATE = 0x7F2E, SKELETAL = 0x90 };

/* The first byte of a length that has one or two bytes behind it. */
enum { ONE_MORE = 0x81, TWO_MORE = 0x82 };

/* The largest lengths without such a byte, and with one byte behind it. */
enum { MOST_IN_ONE = 127, MOST_BEHIND_ONE = 255 };

/* A view header's bytes before its width, and an extended block without segments. */
enum { NAMING = VIEW_VALUES, NO_SEGMENTS = 2 };

/* What each size fixes: record bytes 15 to 21. */
static const uint8_t scales[SIZES][SCALE] = {
    {200, 11, 8, 4, 24, 60, 32},
    {100, 8, 6, 4, 16, 60, 32},
};

static const uint8_t zeros[NAMING];

/* ---- the shape of an object ---- */

/* How many bytes a length takes. */
static size_t length_size(size_t length)
{
    return length <= MOST_IN_ONE ? 1 : length <= MOST_BEHIND_ONE ? 2 : 3;
}

/* The value whose length stands first in `rest`, which moves on behind it; 0 if the length is cut
 * or not in its shortest form, or if the value passes the end. */
static int take_value(plain_block *rest, plain_block *value)
{
    const uint8_t *at = rest->bytes;
    const size_t left = rest->length;
    size_t size;
    if (left >= 1 && at[0] <= MOST_IN_ONE)
        *value = (plain_block){at + 1, at[0]};
    else if (left >= 2 && at[0] == ONE_MORE)
        *value = (plain_block){at + 2, at[1]};
    else if (left >= 3 && at[0] == TWO_MORE)
        *value = plain_block_at(at + 1);
    else
        return 0;
    size = (size_t)(value->bytes - at);
    if (size != length_size(value->length) || left - size < value->length)
        return 0;
    *rest = (plain_block){plain_block_end(*value), left - size - value->length};
    return 1;
}

/* The value of the object that comes next in a template, whatever its tag. */
static int take_object(plain_block *rest, plain_block *value)
{
    if (rest->length < 1)
        return 0;
    rest->bytes++;
    rest->length--;
    return take_value(rest, value);
}

/* The value of the object 90, if all around it is as it must be. */
static int find_value(plain_block object, plain_block *value)
{
    plain_block template, passed;
    if (object.length < 2 || plain_two_bytes(object.bytes) != TEMPLATE)
        return 0;
    object.bytes += 2;
    object.length -= 2;
    if (!take_value(&object, &template) || object.length > 0)
        return 0;
    if (template.length < 1 || template.bytes[0] != SKELETAL || !take_object(&template, value))
        return 0;
    while (template.length > 0)
        if (!take_object(&template, &passed))
            return 0;
    return 1;
}

/* Its blocks, if they fill it: width and height, then skeleton and index behind their lengths. */
static int find_blocks(plain_block value, plain_view *view)
{
    const size_t around = VIEW_HEADER - NAMING + 2; /* all but the two blocks */
    if (value.length < around)
        return 0;
    view->skeleton = plain_block_at(value.bytes + 4);
    if (view->skeleton.length > value.length - around)
        return 0;
    view->index = plain_block_at(plain_block_end(view->skeleton));
    return view->index.length == value.length - around - view->skeleton.length;
}

/* ---- reading and writing ---- */

fsk_answer plain_card_read(uint32_t size, const uint8_t *object, size_t object_length,
                           uint8_t *record, size_t record_length)
{
    const plain_block lent = {object, object_length};
    plain_record judged = {.bytes = object};
    plain_block value;
    size_t length;
    fsk_answer refusal;
    if (size >= SIZES || !find_value(lent, &value) || !find_blocks(value, &judged.view))
        return plain_refused(BAD_OBJECT);
    plain_set_widths(&judged, scales[size]);
    if ((refusal = judge_skeleton(&judged, &judged.view)).number != 0)
        return refusal;
    if ((refusal = judge_index(&judged, &judged.view)).number != 0)
        return refusal;
    length = HEADER + NAMING + value.length + NO_SEGMENTS;
    if ((refusal = plain_judge_length(length, record_length)).number != 0)
        return refusal;
    record = plain_put_header(record, length, zeros, 1, scales[size]);
    record = plain_put_bytes(record, zeros, NAMING);
    record = plain_put_bytes(record, value.bytes, value.length);
    plain_put_bytes(record, zeros, NO_SEGMENTS);
    return plain_accepted(length);
}

static uint8_t *put_length(uint8_t *out, size_t length)
{
    if (length > MOST_BEHIND_ONE) {
        *out++ = TWO_MORE;
        return plain_put_two_bytes(out, (uint32_t)length);
    }
    if (length > MOST_IN_ONE)
        *out++ = ONE_MORE;
    *out++ = (uint8_t)length;
    return out;
}

fsk_answer plain_card_write(uint32_t size, const uint8_t *record, size_t record_length,
                            uint32_t finger, uint32_t number, uint8_t *object,
                            size_t object_length)
{
    const plain_name name = {finger, number};
    plain_record judged;
    const uint8_t *start;
    size_t value, template, length;
    fsk_answer refusal;
    if (size >= SIZES)
        return plain_refused(BAD_OBJECT);
    if ((refusal = plain_judge_view(record, record_length, name, &judged)).number != 0)
        return refusal;
    if (memcmp(record + 15, scales[size], SCALE) != 0)
        return plain_refused(OTHER_SCALE);
    start = judged.view.skeleton.bytes - (VIEW_HEADER - NAMING);
    value = (size_t)(plain_block_end(judged.view.index) - start);
    template = 1 + length_size(value) + value;
    length = 2 + length_size(template) + template;
    if (length > object_length)
        return plain_refused(NO_ROOM);
    object = put_length(plain_put_two_bytes(object, TEMPLATE), template);
    *object++ = SKELETAL;
    plain_put_bytes(put_length(object, value), start, value);
    return plain_accepted(length);
}

/* ---- runs ---- */

enum { BYTE = 256, LARGEST_COORDINATE = 65535 };

fsk_answer plain_low_bytes(const uint8_t *run, size_t run_length, uint8_t *bytes,
                           size_t bytes_length)
{
    const size_t count = run_length / 2;
    uint32_t before = 0;
    if (run_length % 2 != 0)
        return plain_refused(BAD_RUN);
    for (size_t i = 0; i < count; i++) {
        const uint32_t coordinate = plain_two_bytes(run + 2 * i);
        if (coordinate < before || coordinate - before >= BYTE)
            return plain_refused(BAD_RUN);
        before = coordinate;
    }
    if (count > bytes_length)
        return plain_refused(NO_ROOM);
    for (size_t i = 0; i < count; i++)
        bytes[i] = run[2 * i + 1];
    return plain_accepted(count);
}

/* The coordinate with this low byte that comes next behind one. */
static uint32_t next_coordinate(uint32_t before, uint8_t low)
{
    return before + (uint8_t)(low - before);
}

fsk_answer plain_from_low_bytes(const uint8_t *bytes, size_t bytes_length, uint8_t *run,
                                size_t run_length)
{
    uint32_t coordinate = 0;
    for (size_t i = 0; i < bytes_length; i++)
        if ((coordinate = next_coordinate(coordinate, bytes[i])) > LARGEST_COORDINATE)
            return plain_refused(BAD_RUN);
    if (bytes_length > run_length / 2)
        return plain_refused(NO_ROOM);
    coordinate = 0;
    for (size_t i = 0; i < bytes_length; i++) {
        coordinate = next_coordinate(coordinate, bytes[i]);
        run = plain_put_two_bytes(run, coordinate);
    }
    return plain_accepted(bytes_length);
}
