/*
 * What the calls on one segment share: the segment as it was found, refusals 23 and, where it is of
 * another type, 24 or 26, and a record that is rewritten up to the payload.
 */
#ifndef PLAIN_SEGMENTS_H
#define PLAIN_SEGMENTS_H

#include "plain.h"

/* A segment, as it was found. */
typedef struct {
    plain_record in;
    plain_block payload; /* the bytes behind its type and its length */
} plain_found;

/* 1 to 12, 13 and 23. */
fsk_answer plain_find_segment(const uint8_t *record, size_t record_length, plain_name view,
                              uint32_t segment, plain_found *found);

/* The same, and 24 or 26 where the segment is not of the wanted type, local quality or pores. */
static inline fsk_answer plain_find_typed(const uint8_t *record, size_t record_length,
                                          plain_name view, uint32_t segment, uint32_t type,
                                          plain_found *found)
{
    const fsk_answer refusal = plain_find_segment(record, record_length, view, segment, found);
    if (refusal.number == 0 && plain_two_bytes(found->payload.bytes - SEGMENT_HEADER) != type)
        return plain_refused(type == SWEAT_PORES ? BAD_PORES : BAD_QUALITY);
    return refusal;
}

/* 19 and 20, of the record with a new payload of so many bytes. If it is neither, puts all that
 * comes before the payload, and *out is then where the payload belongs. Gives the call's answer. */
static inline fsk_answer plain_put_up_to_payload(uint8_t **out, size_t out_length,
                                                 const plain_found *found, size_t payload)
{
    const plain_block *old = &found->payload, *extended = &found->in.view.extended;
    const size_t length = (size_t)(found->in.end - found->in.bytes) - old->length + payload;
    const fsk_answer refusal = plain_judge_length(length, out_length);
    uint8_t *at = *out;
    if (refusal.number != 0)
        return refusal;
    at = plain_put_before(at, &found->in, extended->bytes - 2, length);
    at = plain_put_two_bytes(at, (uint32_t)(extended->length - old->length + payload));
    at = plain_put_bytes(at, extended->bytes, (size_t)(old->bytes - 2 - extended->bytes));
    *out = plain_put_two_bytes(at, (uint32_t)(SEGMENT_HEADER + payload));
    return plain_accepted(length);
}

#endif
