"""What the cases of request [9] have to meet; part of tables.py.

A call with a size has a row for each size, and one for numbers that are no size.
"""

import card_ways
from card import SETS
from card_before import (NO_SIZE_READ, NO_SIZE_WRITE, READ_BEFORE, RUN_BEFORE,
                         WRITE_BEFORE)
from model import LOW_FAULTS, RUN_FAULTS, SET_FAULTS, SHAPE_FAULTS, SIZE_FAULTS
from runs import RUN_WAYS
from tables_rows import NONE, row_named

# The numbers that have faults of their own, and those of an object's blocks.
NUMBERS = (8, 9, 10, 27, 28, 29)
# No writing gives 19: an object has at most 17 bytes besides its two blocks, and the
# record that they come from has at least 38 besides.
READ_NUMBERS = {0, 8, 9, 10, 19, 20, 27}
WRITE_NUMBERS = {0, *range(1, 14), 20, 28}
RUN_NUMBERS = {0, 20, 29}
RUN_ROOMS = card_ways.ROOMS


def at_each_size(call, met):
    """What has to be met at each size."""
    return {row_named(call, size): met for size in range(len(SETS))}


def without_size(met_read, met_write):
    """What has to be met where a number is no size."""
    return {row_named("card_read", NONE): met_read,
            row_named("card_write", NONE): met_write}


MUST_MEET = {**at_each_size("card_read", READ_NUMBERS),
             **at_each_size("card_write", WRITE_NUMBERS), **without_size({27}, {27}),
             "low_bytes": RUN_NUMBERS, "from_low_bytes": RUN_NUMBERS}
FAULTS_OF = {**at_each_size("card_read", {27: SHAPE_FAULTS}),
             **at_each_size("card_write", {28: SET_FAULTS}),
             **without_size({27: SIZE_FAULTS}, {27: SIZE_FAULTS}),
             "low_bytes": {29: RUN_FAULTS}, "from_low_bytes": {29: LOW_FAULTS}}
WAYS = {**at_each_size("card_read", ("object read", card_ways.READINGS)),
        **at_each_size("card_write", ("object written", card_ways.WRITINGS)),
        "low_bytes": ("low bytes of a run", RUN_WAYS + RUN_ROOMS),
        "from_low_bytes": ("run of low bytes", RUN_WAYS + RUN_ROOMS + ("bytes over",))}
# Which number has to come before which other that applies too.
BEFORE = {**at_each_size("card_read", READ_BEFORE),
          **at_each_size("card_write", WRITE_BEFORE),
          **without_size(NO_SIZE_READ, NO_SIZE_WRITE),
          "low_bytes": RUN_BEFORE, "from_low_bytes": RUN_BEFORE}
