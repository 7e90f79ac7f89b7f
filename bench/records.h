/*
 * The records that the benchmark runs on, and what it asks of each. They are made in memory and are
 * the same in every run, so that two tables can be compared.
 */
#ifndef RECORDS_H
#define RECORDS_H

#include "plain.h"

enum { SHAPES = 6 };

/* The records of a shape. */
enum { ALIKE = 16 };

/* The orders of a list of pairs. */
enum { ORDERS = 400 };

/* A record, and what is asked of it. */
typedef struct {
    const uint8_t *record;
    size_t length;
    const uint8_t *sheet;          /* the record as a sheet */
    size_t sheet_length;
    plain_name view;               /* the last view */
    uint32_t lines;                /* its count of lines */
    plain_name with_segments;      /* the last view that has segments */
    uint32_t segments;             /* how many it has; 0 where no view has any */
    const uint8_t *values;         /* the local quality that the last of them holds */
    size_t values_length;          /* 0 where it holds none */
    const uint8_t *pores;          /* the pores that it holds, as numbers */
    size_t pores_length;           /* in bytes; 0 where it holds none */
    uint32_t size;                 /* the card's size that the record is of */
    const uint8_t *object;         /* the last view as a card's object */
    size_t object_length;          /* 0 where the record is of neither size */
    const uint8_t *run;            /* a start coordinate for each line of the last view */
    size_t run_length;             /* in bytes */
    const uint8_t *low_bytes;      /* its low bytes */
    size_t low_bytes_length;
    plain_name ordered;            /* the last view that lines can be removed from */
    uint32_t ordered_lines;        /* its count of lines */
    const uint8_t *removed;        /* every third of them, as a removal's list */
    size_t removed_length;         /* in bytes */
    uint32_t strangers[2];         /* two of them that are no neighbours, to be joined */
    uint32_t neighbours[2];        /* two that are, to be parted */
    const uint8_t *pairs;          /* a list of joins and parts of them; null for most shapes */
} sample;

/* Records that are alike in shape and unlike in bits: they have the same views, counts of lines,
 * widths and bounds of how many codes a line has. They are called in turn, since a processor learns
 * the branches of a single record by heart. */
typedef struct {
    const char *name;
    sample samples[ALIKE];
} shape;

/* Fills in all shapes; their records' bytes stay where they are. To be called once. */
void make_shapes(shape shapes[SHAPES]);

#endif
