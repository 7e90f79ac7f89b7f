/*
 * The parts of a benchmark record. Nothing here is timed, so bits are put one by one.
 */
#include "maker.h"

#include "plain_pores.h"

enum { SIXTEEN = 16, MOST_NEIGHBOURS = 3 };

/* Of every view that is made here, in points. */
enum { WIDTH = 600, HEIGHT = 800 };

/* A number below `limit`, the next of a fixed sequence. */
static uint32_t draw(maker *m, uint32_t limit)
{
    m->drawn = m->drawn * 1664525u + 1013904223u;
    return (m->drawn >> 8) % limit;
}

static void put(maker *m, unsigned width, uint32_t number)
{
    while (width-- > 0) {
        m->bytes[m->bit / 8] |= (uint8_t)((number >> width & 1) << (7 - m->bit % 8));
        m->bit++;
    }
}

void put_bytes(maker *m, const uint8_t *bytes, size_t length)
{
    for (size_t i = 0; i < length; i++)
        put(m, 8, bytes[i]);
}

/* Puts a length field that end_block fills in, and gives the byte where it is. */
static size_t start_block(maker *m)
{
    const size_t at = m->bit / 8;
    put(m, SIXTEEN, 0);
    return at;
}

static void end_block(maker *m, size_t at)
{
    const size_t end = (size_t)plain_whole_bytes(m->bit);
    plain_put_two_bytes(m->bytes + at, (uint32_t)(end - at - 2));
    m->bit = 8 * end;
}

static void put_end(maker *m)
{
    put(m, 2, draw(m, 4));
    put(m, m->b, draw(m, 1u << m->b));
    put(m, m->c, draw(m, 1u << m->c));
    put(m, m->c, draw(m, 1u << m->c));
}

/* A line as ridges run: small changes of direction, and now and then a level turn. */
void put_line(maker *m, uint32_t codes)
{
    const uint32_t level_turn = 1u << (m->k - 1);
    put_end(m);
    put(m, 8, codes);
    for (; codes > 0; codes--)
        put(m, m->k, draw(m, 16) == 0 ? level_turn : draw(m, 5) - 2);
    put_end(m);
}

/* Up to three neighbours for each line, none of them itself. */
static void put_index(maker *m, uint32_t lines)
{
    const size_t at = start_block(m);
    put(m, 8, m->w);
    for (uint32_t line = 0; line < lines; line++) {
        const uint32_t wanted = draw(m, MOST_NEIGHBOURS + 1);
        uint32_t differences[MOST_NEIGHBOURS], count = 0, left = line;
        while (count < wanted && left > 0) {
            const uint32_t most = (1u << m->w) - 1;
            differences[count] = 1 + draw(m, left < most ? left : most);
            left -= differences[count++];
        }
        put(m, m->w, count);
        for (uint32_t i = 0; i < count; i++)
            put(m, m->w, differences[i]);
    }
    end_block(m, at);
}

void put_segments(maker *m, uint32_t segments)
{
    const size_t at = start_block(m);
    for (; segments > 0; segments--) {
        const uint32_t payload = 40 + draw(m, 80);
        put(m, SIXTEEN, draw(m, 1u << 16));
        put(m, SIXTEEN, SEGMENT_HEADER + payload);
        for (uint32_t i = 0; i < payload; i++)
            put(m, 8, draw(m, 256));
    }
    end_block(m, at);
}

/* Cells of 16 by 16 points, with values of 4 bits. */
void put_quality(maker *m)
{
    enum { CELL = 16, BITS = 4 };
    const uint32_t cells = (WIDTH + CELL - 1) / CELL * ((HEIGHT + CELL - 1) / CELL);
    const size_t at = start_block(m);
    put(m, SIXTEEN, LOCAL_QUALITY);
    put(m, SIXTEEN, SEGMENT_HEADER + QUALITY_HEADER + (uint32_t)plain_whole_bytes(BITS * cells));
    put(m, 8, CELL);
    put(m, 8, CELL);
    put(m, 8, BITS);
    for (uint32_t i = 0; i < cells; i++)
        put(m, BITS, draw(m, 1u << BITS));
    end_block(m, at);
}

/* The elements of a distance. */
static void put_distance(maker *m, unsigned bits, uint32_t distance)
{
    const uint32_t no_pore = plain_no_pore(bits);
    for (; distance >= no_pore; distance -= no_pore - 1)
        put(m, bits, no_pore);
    put(m, bits, distance);
}

/* Up to ten pores for each line, up to 40 points apart; elements have 5 bits, so that a distance
 * above 30 takes two of them. */
void put_pores(maker *m, uint32_t lines)
{
    enum { RESOLUTION = 400, BITS = 5, MOST_PORES = 10, FARTHEST = 40 };
    const size_t at = start_block(m);
    size_t segment;
    put(m, SIXTEEN, SWEAT_PORES);
    segment = start_block(m);
    put(m, SIXTEEN, RESOLUTION);
    put(m, 8, BITS);
    for (; lines > 0; lines--) {
        put(m, BITS, 0);
        for (uint32_t pores = draw(m, MOST_PORES + 1); pores > 0; pores--)
            put_distance(m, BITS, 1 + draw(m, FARTHEST));
    }
    end_block(m, segment);
    /* a segment's length counts its type and itself too */
    plain_put_two_bytes(m->bytes + segment, (uint32_t)(m->bit / 8 - (segment - 2)));
    end_block(m, at);
}

void put_view(maker *m, plain_name name, uint32_t lines, uint32_t codes, uint32_t more)
{
    size_t skeleton;
    put(m, 8, name.number);
    put(m, 8, name.finger);
    put(m, 8, 0);
    put(m, 8, 80);
    put(m, SIXTEEN, WIDTH);
    put(m, SIXTEEN, HEIGHT);
    skeleton = start_block(m);
    for (uint32_t line = 0; line < lines; line++)
        put_line(m, codes + draw(m, more + 1));
    end_block(m, skeleton);
    put_index(m, lines);
}

void put_header(maker *m, uint32_t views, uint32_t points_per_cm, uint32_t step)
{
    const uint8_t start[8] = {0x46, 0x53, 0x4B, 0x00, 0x30, 0x31, 0x30, 0x00};
    memcpy(m->bytes, start, sizeof start);
    m->bit = 8 * 12; /* the length comes last, in put_length */
    put(m, SIXTEEN, 0);
    put(m, 8, views);
    put(m, 8, points_per_cm);
    put(m, 8, m->c);
    put(m, 8, m->b);
    put(m, 8, m->k);
    put(m, 8, step);
    put(m, 8, 60);
    put(m, 8, 32);
    put(m, SIXTEEN, 0);
}

size_t put_length(maker *m)
{
    const size_t length = m->bit / 8;
    plain_put_two_bytes(m->bytes + 10, (uint32_t)length);
    return length;
}
