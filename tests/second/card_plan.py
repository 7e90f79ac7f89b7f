"""Plans the cases of the two calls on cards' objects.

Each starts with its edges: cases in which two numbers apply, then objects or records
listed one by one; of writing also names of views, and records that are not quite of the
size. Then come objects and records at random, right and damaged in turns.
"""

from dataclasses import replace
from itertools import cycle

from build import build
from card import SETS
from card_before import readings_before, writings_before
from card_build import card_bytes
from damage import KINDS as RECORD_KINDS
from damage import damaged
from edges_card import SIZES, card_edges, with_rooms
from edges_card_blocks import LONGEST_BLOCKS
from edges_names import FIVE, name_edges, names_record
from faults import all_faults
from lend import lend, lend_enough, lend_twice
from make import fill, random_record
from make_card import (KINDS, card_record, damaged_card, lines_of_bytes, plain_line,
                       random_card_record, random_parts)
from make_names import any_name, name_in
from model import FAR_SIZES, LARGEST_RECORD, MOST_LINES, Index, Line, Record, View
from names import name_of
from quality_plan import some
from results import judged

# A record's fields for bytes 15 to 21, and the least and the largest that each may be.
ALLOWED = {"points": (1, 255), "c": (1, 16), "b": (4, 8), "k": (2, 8),
           "straight": (1, 255), "perpendicular": (0, 255), "half_turn": (1, 255)}


def any_size(rng, size):
    """The size number, mostly; else the other one, or one that there is not."""
    if rng.random() < 0.06:
        return 1 - size
    if rng.random() < 0.03:
        return rng.choice(FAR_SIZES + (rng.randrange(2, 1 << 32),))
    return size


def card_read_case(rng, kinds):
    """The reading of an object at random, right or damaged."""
    size = rng.choice(SIZES)
    if rng.random() < 0.35:
        data = card_bytes(random_parts(rng, size))
    else:
        data = damaged_card(rng, size, next(kinds))
    return lend(rng, "card_read", [any_size(rng, size)], [data])


def card_read_stream(rng, _stock, budget):
    for size in SIZES:
        yield from readings_before(rng, size)
        for number, data in with_rooms(size):
            yield from lend_twice(rng, "card_read", [number], [data])
    first, others = card_edges()
    for size, data in first + some(rng, others, budget * 2 // 5):
        yield lend(rng, "card_read", [size], [data])
    kinds = cycle(KINDS)
    while True:
        yield card_read_case(rng, kinds)


def one_view_record(size, lines, index=None, **header):
    """A record of a size with one view, (2, 0), but for the fields that are given."""
    view = View(0, 2, 8, 77, 300, 2, lines, index)
    return replace(card_record(size, 0x1234), views=[view], **header)


def small_values(header):
    """Lines whose values fit at nearly every width."""
    return [Line(1, 9, 1, 0, [1, -2], 2, 8, 0, 1)] if header["c"] == 1 else [
        Line(1, 9, 3, 2, [1, -2, 0], 2, 8, 0, 3), Line(3, 15, 1, 1, [], 0, 0, 2, 2)]


def off_records(size):
    """Records that are off in one of bytes 15 to 21: by one either way, by much, and by
    as much as the other size; and those of the other size, but for one of these."""
    found, names = [], list(ALLOWED)
    own, other = dict(zip(names, SETS[size])), dict(zip(names, SETS[1 - size]))
    for name, (least, largest) in ALLOWED.items():
        values = {own[name] - 1, own[name] + 1, least, largest, other[name]}
        found += [{**own, name: value} for value in sorted(values)
                  if least <= value <= largest]
        found.append({**other, name: own[name]})
    return [build(one_view_record(size, small_values(header), **header))
            for header in found + [other]]


def write_records(size):
    """Records whose objects have lengths around each change of form, those with 1,024
    lines, without lines, without an index and with one over no lines; and records of
    32,768 bytes, by a skeleton and by a segment that is left out."""
    header = card_record(size)
    found = [one_view_record(size, lines_of_bytes(header, number))
             for number in (*range(115, 124), *range(242, 252))]
    found += [one_view_record(size, []), one_view_record(size, [], Index(16, [])),
              one_view_record(size, [plain_line(5, 1)], Index(9, [[0]])),
              one_view_record(size, [plain_line(at, 0) for at in range(MOST_LINES)]),
              one_view_record(size, lines_of_bytes(header, LONGEST_BLOCKS)),
              fill(one_view_record(size, [plain_line(5, 1)]), LARGEST_RECORD)]
    return [build(record) for record in found]


def named_writings(rng, size, most):
    """Names at the edges: the first ones, and as many of the others as there may be."""
    first, others = name_edges(size)
    for edge in first + some(rng, others, most):
        yield lend_enough(rng, "card_write", [size, *edge.name], [edge.data])


def write_edges(rng, size, budget):
    """All edges of writing at a size."""
    right = names_record(FIVE, size)
    yield from writings_before(rng, size, build(right), name_of(right.views[0]))
    yield from named_writings(rng, size, budget // 40)
    for data in off_records(size):
        yield lend(rng, "card_write", [size, 2, 0], [data])
    for data in write_records(size):
        yield from lend_twice(rng, "card_write", [size, 2, 0], [data])
    too_many = one_view_record(size, [plain_line(at, 0) for at in range(MOST_LINES + 1)])
    for data in [data for _, _, _, data in all_faults()] + [build(too_many)]:
        yield lend(rng, "card_write", [size, 2, 0], [data])


def nearly_of_size(rng, size):
    """A header that is off in one of bytes 15 to 21, or in two, or of the other size."""
    header = card_record(size, rng.getrandbits(16))
    if rng.random() < 0.2:
        return card_record(1 - size)
    for name in rng.sample(list(ALLOWED), rng.choice((1, 1, 2))):
        least, largest = ALLOWED[name]
        value = getattr(header, name) + rng.choice((-1, 1))
        setattr(header, name, value if least <= value <= largest else least)
    return header


def card_write_case(rng, kinds):
    """The writing of a view at random, in a record that is right, damaged, or not quite
    of the size."""
    size, kind = rng.choice(SIZES), rng.random()
    if kind < 0.5:
        data = build(random_card_record(rng, size))
    elif kind < 0.65:
        data = build(random_record(rng, "small", 0.3, nearly_of_size(rng, size)))
    else:
        record = random_record(rng, "tiny", 0.5, card_record(size, rng.getrandbits(16)))
        data = damaged(rng, record, next(kinds))
    record = judged(data)
    name = name_in(rng, record) if isinstance(record, Record) else any_name(rng)
    return lend(rng, "card_write", [any_size(rng, size), *name], [data])


def card_write_stream(rng, _stock, budget):
    for size in SIZES:
        yield from write_edges(rng, size, budget)
    kinds = cycle(RECORD_KINDS)
    while True:
        yield card_write_case(rng, kinds)
