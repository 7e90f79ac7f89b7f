/*
 * Payloads of sweat pores, judged: reading one needs it, and so does a removal, which counts on the
 * way what will be left of it.
 */
#ifndef PLAIN_PORES_H
#define PLAIN_PORES_H

#include "plain_remove.h"

/* How many bits an element may have. */
enum { LEAST_ELEMENT = 2, MOST_ELEMENT = 8 };

/* An element that says that no pore comes: all ones. What it passes, which is also the longest
 * distance that another element says, is one below it. */
static inline uint32_t plain_no_pore(unsigned e)
{
    return (1u << e) - 1;
}

/* What a payload that keeps the rules has. */
typedef struct {
    unsigned e;       /* the bits of an element */
    size_t elements;  /* all but those that fill up */
    size_t distances;
    size_t staying;   /* the elements of the lines that stay */
} plain_judged_pores;

static inline size_t plain_pores_length(unsigned e, size_t elements)
{
    return PORES_HEADER + plain_whole_bytes((uint64_t)e * elements);
}

/* Whether a payload keeps the rules in a view of so many lines. `kept` says which of them stay; it
 * is null where all do. */
static inline int plain_judge_pores(plain_block payload, uint32_t lines,
                                    const plain_survivors *kept, plain_judged_pores *pores)
{
    const unsigned e = payload.length < PORES_HEADER ? 0 : payload.bytes[2];
    uint32_t no_pore, before = 0, started = 0, stays = 0; /* started: how many lines are */
    size_t left, elements = 0, distances = 0, staying = 0; /* left: bits */
    plain_reader reader;
    if (e < LEAST_ELEMENT || e > MOST_ELEMENT)
        return 0;
    no_pore = plain_no_pore(e);
    left = 8 * (payload.length - PORES_HEADER);
    if (left > 0 && payload.bytes[PORES_HEADER] >> (8 - e) != 0) /* the first element */
        return 0;
    reader = plain_reader_at(payload.bytes, 8 * PORES_HEADER);
    for (; left >= e; left -= e) {
        const uint32_t element = plain_take(&reader, e);
        if (element == 0) {
            if (before == no_pore)
                return 0;
            if (started == lines)
                break;
            stays = kept == NULL || plain_stays(kept, started);
            started++;
        }
        distances += element != 0 && element != no_pore;
        staying += stays;
        elements++;
        before = element;
    }
    *pores = (plain_judged_pores){e, elements, distances, staying};
    return started == lines && before != no_pore && left < 8 && plain_is_padding(payload, left);
}

#endif
