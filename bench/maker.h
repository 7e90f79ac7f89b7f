/*
 * Puts a benchmark record together, part by part in the order of its bytes: header, then for each
 * view its values, lines and index, and its segments; its length comes last.
 */
#ifndef MAKER_H
#define MAKER_H

#include "plain.h"

/* A record in the making, all zero bits at first, and its widths. */
typedef struct {
    uint8_t bytes[LARGEST_RECORD];
    size_t bit;
    unsigned c, b, k, w;
    uint32_t drawn; /* the last number drawn; what it is at first decides all that are drawn */
} maker;

/* Bytes as they are. */
void put_bytes(maker *m, const uint8_t *bytes, size_t length);

void put_header(maker *m, uint32_t views, uint32_t points_per_cm, uint32_t step);

/* A line with so many codes. */
void put_line(maker *m, uint32_t codes);

/* A view up to its extended block; its lines have `codes` codes each and up to `more` beyond. */
void put_view(maker *m, plain_name name, uint32_t lines, uint32_t codes, uint32_t more);

/* The extended block that ends a view: so many segments of any type, one of local quality, or one
 * of pores for so many lines. */
void put_segments(maker *m, uint32_t segments);
void put_quality(maker *m);
void put_pores(maker *m, uint32_t lines);

/* Ends the record, and gives its length. */
size_t put_length(maker *m);

#endif
