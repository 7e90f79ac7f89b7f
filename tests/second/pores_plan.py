"""Plans the cases of the two calls on pores, and of orders beside pores.

Each starts with its edges. Then come records at random, of which mostly a segment of
pores is named. A rewriting is lent what reading gives, that with a distance changed,
other numbers, or broken ones; now and then the new record comes to 32,768 bytes or just
past them.
"""

import make_pores
from answers import outcome
from build import build
from edges_pore_numbers import filling, numbers_edges
from edges_pore_removals import (LINES, REMOVAL_NAMES, bad_payloads, removal_edges,
                                 removal_record, rows_of_segments)
from edges_pores import (EVERY_E, NAMED, OTHER_TYPES, full_of_pores, payload_edges,
                         pores_record)
from lend import edges_first, lend, lend_enough
from make import random_payload, random_record
from make_pores import (broken_numbers, fresh_numbers, places_of_numbers,
                        random_distance, with_numbers)
from model import LARGEST_RECORD, PORES_TYPE, QUALITY_TYPE, Record, Segment
from names import find_view, name_of
from pores import NUMBER_FAULTS, bytes_of, from_numbers
from quality_plan import filling_case, named_segment, some
from results import judged

# What a segment holds whose payload is to be rewritten at the edges.
STORED = (b"", b"\0\1\2", b"\0\xc8\4\0", b"\0\0\x08" + bytes(40))


def pores_case(rng, data):
    """Reading of a segment of a record's bytes."""
    return lend(rng, "pores", named_segment(rng, data, PORES_TYPE), [data])


def one_distance_changed(rng, pores):
    """The numbers with another distance in one place, where there is one."""
    _, distances = places_of_numbers(pores)
    if not distances:
        return with_numbers(pores, 0, rng.getrandbits(16))
    return with_numbers(pores, rng.choice(distances), random_distance(rng, pores.e))


def numbers_for(rng, data, named):
    """Numbers to be written: from those stored, or others; some are broken."""
    *name, segment = named
    record = judged(data)
    view = find_view(record, *name) if isinstance(record, Record) else None
    if view is None or segment >= len(view.segments):
        return rng.choice((bytes_of([200, 4]), bytes_of([200, 4, 0]), b"", b"\0"))
    read = outcome("pores", named, [data])
    kind = rng.randrange(10)
    if read.number != 0 or kind > 5:
        return fresh_numbers(rng, len(view.lines))
    if kind < 2:
        return read.written
    pores = from_numbers(read.written, len(view.lines))
    if kind < 4:
        return one_distance_changed(rng, pores)
    return broken_numbers(rng, pores, rng.choice(NUMBER_FAULTS[1:]))


def set_pores_case(rng, data):
    """Rewriting of a segment of a record's bytes."""
    named = named_segment(rng, data, PORES_TYPE)
    return lend(rng, "set_pores", named, [data, numbers_for(rng, data, named)])


def filled_case(rng):
    """A rewriting that fills the record; some of the lists are cut all the same."""
    return filling_case(rng, "set_pores", PORES_TYPE, numbers_for,
                        lambda _, numbers: numbers[:-1])


def pores_edges(rng, most):
    """Payloads at the edges, right payloads under other types, and the longest; the
    room is often just enough, or a byte short."""
    first, others = payload_edges()
    first += [(LINES, payload) for payload in bad_payloads()]
    for turn, (count, payload) in enumerate(first + some(rng, others, most)):
        data = pores_record(count, payload)
        size = len(outcome("pores", NAMED, [data]).written)
        rooms = (None, size, max(0, size - 1), size + 3)
        yield lend(rng, "pores", NAMED, [data], rooms[turn % 4])
    for type_ in OTHER_TYPES:
        yield lend(rng, "pores", NAMED, [pores_record(2, b"\0\xc8\4\2\3", type_)])
    for e, distance in ((2, 1), (8, 254)):
        data = full_of_pores(e, distance)
        size = len(outcome("pores", NAMED, [data]).written)
        for out_size in (size, size - 1):
            yield lend(rng, "pores", NAMED, [data], out_size)


def filling_cases(rng):
    """At every e a record that comes to 32,768 bytes, with just the room for it and
    with a byte less, and one that comes to a byte more: 19."""
    for e in EVERY_E:
        data, numbers = filling(e, 0)
        for out_size in (LARGEST_RECORD, LARGEST_RECORD - 1):
            yield lend(rng, "set_pores", NAMED, [data, numbers], out_size)
        data, numbers = filling(e, 1)
        yield lend(rng, "set_pores", NAMED, [data, numbers], 65536)


def set_pores_edges(rng, most):
    """Numbers at the edges, types, the longest record, and results far too long."""
    first, others = numbers_edges()
    for at, (count, numbers) in enumerate(first + some(rng, others, most)):
        data = pores_record(count, STORED[at % len(STORED)])
        yield lend(rng, "set_pores", NAMED, [data, numbers])
    for type_ in OTHER_TYPES:
        data = pores_record(1, b"\0\xc8\4\0", type_)
        yield lend(rng, "set_pores", NAMED, [data, bytes_of([200, 4, 1, 9])])
    yield from filling_cases(rng)
    data = full_of_pores(4, 7)
    numbers = outcome("pores", NAMED, [data]).written
    longer = bytes_of([200, 5]) + numbers[8:]
    for values, out_size in ((numbers, len(data)), (numbers, len(data) - 1),
                             (longer, 65536)):
        yield lend(rng, "set_pores", NAMED, [data, values], out_size)


def record_with_pores(rng, right=1.0):
    """The bytes of a record of which every view has pores, right ones with this chance,
    and some have local quality beside them, which may be broken."""
    size = rng.choice(("small", "small", "middle", "fingers"))
    record = random_record(rng, size, 0.0)
    for view in record.views:
        payloads = [make_pores.random_payload(rng, len(view.lines), right)
                    for _ in range(rng.choice((1, 1, 2, 3)))]
        view.segments = [Segment(PORES_TYPE, payload) for payload in payloads]
        if rng.random() < 0.3:
            carried = Segment(QUALITY_TYPE, random_payload(rng, QUALITY_TYPE, view))
            view.segments.insert(rng.randint(0, len(view.segments)), carried)
    return build(record)


def readings_behind(rng, case):
    """Readings of the pores that an accepted order left in the view that it changed."""
    data, name = case.expected.written, case.numbers[:2]
    segments = find_view(judged(data), *name).segments
    places = [at for at, segment in enumerate(segments) if segment.type == PORES_TYPE]
    for at in some(rng, places, 2):
        make = lend_enough if rng.random() < 0.8 else lend
        yield make(rng, "pores", [*name, at], [data])


def random_removals(rng, count):
    """Record, view and lines of removals from views with pores, some of them broken."""
    for _ in range(count):
        data = record_with_pores(rng, 0.7)
        view = max(judged(data).views, key=lambda each: len(each.lines) + rng.random())
        if view.lines:
            lines = rng.sample(range(len(view.lines)), rng.randint(1, len(view.lines)))
            yield data, name_of(view), sorted(lines)


def pore_removals(rng, read_too, most):
    """Removals at the edges, the first ones and as many of the others as there may be,
    and as many at random. What an accepted one left may be read behind it."""
    first, others = removal_edges()
    for data, name, lines in (*first, *some(rng, others, most),
                              *random_removals(rng, most)):
        listed = b"".join(line.to_bytes(2, "big") for line in lines)
        count = len(find_view(judged(data), *name).lines)
        case = lend(rng, "remove", [*name, count], [data, listed])
        yield case
        if read_too and case.expected.number == 0:
            yield from readings_behind(rng, case)


def pore_pairs(rng, call, numbers, slices, most):
    """A join, a part or a list in views with pores of all sorts, which it leaves."""
    rows = sum(rows_of_segments(), [])
    for row in some(rng, rows, most):
        data = removal_record(row, row[::-1])
        yield lend(rng, call, [*rng.choice(REMOVAL_NAMES), *numbers], [data] + slices)


def pores_stream(rng, source, most_edges):
    """Readings."""
    return edges_first(rng, pores_edges(rng, most_edges), source, pores_case)


def set_pores_stream(rng, source, most_edges):
    """Rewritings; some fill the record."""
    edges = set_pores_edges(rng, most_edges)
    return edges_first(rng, edges, source, set_pores_case, filled_case)
