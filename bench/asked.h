/*
 * What orders ask of a benchmark record: which view they are about, which of its lines go, which
 * are joined and which are parted. And a run of start coordinates for its last view.
 */
#ifndef ASKED_H
#define ASKED_H

#include "plain.h"
#include "records.h"

/* Fills in the view that orders are about, two of its lines to join and two to part, and gives the
 * view's index. Each record has such a view. */
plain_block choose_view(sample *of);

/* These write a list about that view, and give its length in bytes. */
size_t list_removal(const sample *of, uint8_t *list);
size_t list_pairs(const sample *of, plain_block index, uint8_t *list);

/* A run of as many coordinates as the last view has lines; likewise. */
size_t list_run(const sample *of, uint8_t *list);

#endif
