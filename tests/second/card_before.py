"""Cases in which two numbers of request [9] apply, and which of them is given.

27 for the size comes before all others, and all of 27 before 8 to 10; 9 and 8 come
before 10, and all of these before 19 and 20. A record is judged before 13, which comes
before 28, and that before 20. 29 comes before 20. Each wrong thing is shown to have its
number alone before two of them stand in one case.
"""

from itertools import combinations

from answers import outcome
from card_build import Wrapped, card_bytes
from edges_card_blocks import (LONGEST_BLOCKS, long_lines, many_lines, of_blocks,
                               small_parts)
from faults import all_faults, base_bytes
from lend import lend, marked
from model import FAR_SIZES, MOST_LINES, OF_A_RECORD
from runs import bytes_of

PLENTY = 40000
NO_SIZES = FAR_SIZES + (77,)
# What can be wrong when an object is read, in the order in which it is judged, and the
# number; 9 and 8 are not one after the other.
READ_WRONGS = {"size": 27, "after": 27, "left over": 27, "behind": 27, "template": 27,
               "inner": 27, "lines": 9, "line": 8, "index": 10, "long": 19, "room": 20}
SHAPES = ("after", "left over", "behind", "template", "inner")

# Which number comes before which: of reading at a size, of writing at one, and of each
# of the two where there is no such size; 0 is given otherwise.
READ_BEFORE = ((27, 9), (27, 8), (27, 10), (27, 19), (27, 20), (9, 10), (9, 19), (9, 20),
               (8, 10), (8, 19), (8, 20), (10, 19), (10, 20), (19, 20))
WRITE_BEFORE = (*((number, 13) for number in OF_A_RECORD),
                *((number, 28) for number in OF_A_RECORD), (13, 28), (13, 20), (28, 20))
NO_SIZE_READ = tuple((27, number) for number in (0, 27, 9, 8, 10, 19, 20))
NO_SIZE_WRITE = tuple((27, number) for number in (0, *OF_A_RECORD, 13, 28, 20))
RUN_BEFORE = ((29, 20),)


def object_with(size, wrongs):
    """An object in which these things are wrong."""
    parts = small_parts(size)
    if "lines" in wrongs:
        parts = many_lines(size, MOST_LINES)
        if "long" in wrongs:
            parts = long_lines(size, LONGEST_BLOCKS + 1)
    elif "long" in wrongs:
        parts = of_blocks(size, LONGEST_BLOCKS + 1)
    if "line" in wrongs or "lines" in wrongs:
        parts.skeleton += b"\0"
    if "index" in wrongs:
        parts.index = b"\0"
    parts.after = b"\0" if "after" in wrongs else b""
    parts.left_over = b"\0" if "left over" in wrongs else b""
    parts.behind = [Wrapped(b"\x91", off=1)] if "behind" in wrongs else []
    for name in ("template", "inner"):
        if name in wrongs:
            getattr(parts, name).form = 3
    return card_bytes(parts)


def reading_with(rng, size, wrongs, far):
    """The reading of an object in which these things are wrong."""
    number = far if "size" in wrongs else size
    return lend(rng, "card_read", [number], [object_with(size, wrongs)],
                0 if "room" in wrongs else PLENTY)


def wrong_pairs():
    """Two things that can be wrong at once, in their order; of the shape one alone."""
    for first, second in combinations(READ_WRONGS, 2):
        if (first, second) != ("lines", "line") and not (
                first in SHAPES and second in SHAPES):
            yield first, second


def readings_before(rng, size):
    """Every two things that can be wrong in a reading, and a wrong size alone."""
    for wrong, number in READ_WRONGS.items():
        found = reading_with(rng, size, {wrong}, 2)
        assert found.expected.number == number, (wrong, found.expected)
    for turn, (first, second) in enumerate(wrong_pairs()):
        case = reading_with(rng, size, {first, second}, NO_SIZES[turn % len(NO_SIZES)])
        yield marked(case, READ_WRONGS[first], READ_WRONGS[second])
    for far in NO_SIZES:
        yield marked(reading_with(rng, size, {"size"}, far), 27, 0)


def one_of_each():
    """For each number from 1 to 12 a record that is refused with it. They all have other
    widths than a card, and a view (2, 0), where they have one."""
    return {1: b"", **{number: data for number, _, _, data in reversed(all_faults())}}


def writings_before(rng, size, right, name):
    """Every two things that can be wrong in a writing, and a wrong size alone; `right`
    is a record of the size, with a view of that name."""
    other, nobody = base_bytes(), (9, 9)
    for number, data in one_of_each().items():
        assert outcome("read", [], [data]).number == number
        for numbers, mark in (([2, 2, 0], (27, number)), ([size, 2, 0], (number, 28)),
                              ([size, *nobody], (number, 13))):
            yield marked(lend(rng, "card_write", numbers, [data]), *mark)
    for numbers, data, room, mark in (
            ([size, *nobody], other, PLENTY, (13, 28)),
            ([size, *nobody], right, 0, (13, 20)), ([size, 2, 0], other, 0, (28, 20)),
            ([2, *nobody], right, PLENTY, (27, 13)), ([2, 2, 0], other, PLENTY, (27, 28)),
            ([2, *name], right, 0, (27, 20))):
        yield marked(lend(rng, "card_write", numbers, [data], room), *mark)
    for far in NO_SIZES:
        yield marked(lend(rng, "card_write", [far, *name], [right], PLENTY), 27, 0)


def runs_before(rng, call):
    """29 of each kind where there is no room for what is before the fault either."""
    for data in {"low_bytes": (b"\0", bytes_of([1]) + b"\0", bytes_of([256]),
                               bytes_of([9, 8]), bytes_of([9, 265])),
                 "from_low_bytes": (b"\1\0" * 256 + b"\0",)}[call]:
        yield marked(lend(rng, call, [], [data], 0), 29, 20)
