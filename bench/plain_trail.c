/*
 * The trail of a line. The whole record is judged first, and the judge hands on the view's blocks.
 */
#include "plain.h"

/* A line's start direction, the count of its codes, and where they start. */
typedef struct {
    uint32_t direction, count;
    plain_reader codes;
} line_codes;

/* The line with this number, which is below the view's count of lines. */
static line_codes find_line(const plain_record *record, uint32_t number)
{
    const unsigned end_bits = record->end_bits;
    const uint8_t *skeleton = record->view.skeleton.bytes;
    size_t bit = 0;
    plain_reader reader;
    line_codes line;
    for (; number > 0; number--)
        bit += plain_line_bits(skeleton, bit, end_bits, record->k);
    reader = plain_reader_at(skeleton, bit + 2);
    line.direction = plain_take(&reader, record->b);
    line.codes = plain_reader_at(skeleton, bit + end_bits);
    line.count = plain_take(&line.codes, COUNT_OF_CODES);
    return line;
}

/* How many elements the line draws: one for each code that is no level turn. */
static size_t drawn(line_codes line, unsigned k)
{
    const uint32_t level_turn = 1u << (k - 1);
    size_t elements = 0;
    for (uint32_t i = 0; i < line.count; i++)
        elements += plain_take(&line.codes, k) != level_turn;
    return elements;
}

static size_t put_trail(uint8_t *trail, line_codes line, const plain_record *record)
{
    const unsigned k = record->k;
    const int32_t level_turn = 1 << (k - 1);
    const int32_t full_turn = 2 * record->bytes[21];
    /* The nearest heading, halves upwards; the first code takes a full turn back to 0. */
    const int32_t half_heading = 1 << (record->b - 1);
    int32_t heading = ((int32_t)line.direction * full_turn + half_heading) >> record->b;
    int32_t level = 0;
    size_t elements = 0;
    for (uint32_t i = 0; i < line.count; i++) {
        const int32_t code = (int32_t)plain_take(&line.codes, k);
        if (code == level_turn) {
            level ^= 1;
            continue;
        }
        heading += (code ^ level_turn) - level_turn; /* as two's complement */
        while (heading < 0)
            heading += full_turn;
        while (heading >= full_turn)
            heading -= full_turn;
        trail[2 * elements] = (uint8_t)((2 * heading + level) >> 8);
        trail[2 * elements + 1] = (uint8_t)(2 * heading + level);
        elements++;
    }
    return elements;
}

fsk_answer plain_trail(const uint8_t *record, size_t record_length, uint32_t finger,
                       uint32_t number, uint32_t line, uint8_t *trail, size_t trail_length)
{
    const plain_name view = {finger, number};
    const size_t room = trail_length / 2;
    plain_record judged;
    line_codes codes;
    const fsk_answer refusal = plain_judge_view(record, record_length, view, &judged);
    if (refusal.number != 0)
        return refusal;
    if (line >= judged.view.lines)
        return plain_refused(NO_LINE);
    codes = find_line(&judged, line);
    /* Level turns need no room: they are counted only where the codes might not fit. */
    if (codes.count > room && drawn(codes, judged.k) > room)
        return plain_refused(NO_ROOM);
    return plain_accepted(put_trail(trail, codes, &judged));
}
