"""Plans the cases of the two calls on local quality, and of removals beside it.

Each starts with its edges. Then come records at random, of which mostly a segment
of local quality is named. A rewriting is lent what reading gives, that with a cell
changed, other values, or broken ones; now and then the new record comes to 32,768
bytes or just past them.
"""

from answers import outcome
from build import build
from edges_quality import (FULL, NAMED, OTHER_TYPES, REMOVAL_NAMES, full_of_cells,
                           payload_edges, quality_record, removal_records,
                           values_edges)
from lend import edges_first, lend, place_in
from make import fill, random_record
from make_names import any_name, name_in
from make_quality import broken_values, fresh_values, hopeless
from model import LARGEST_RECORD, QUALITY_TYPE, Record
from names import find_view, name_of
from quality import FIRST_BYTES
from results import judged

# What a segment holds whose payload is to be rewritten at the edges.
STORED = (b"", b"\1\1\1\0", b"\1\1\x08" + bytes(40), b"\0")


def some(rng, members, most):
    """All members, or so many of them."""
    return members if len(members) <= most else rng.sample(members, most)


def named_segment(rng, data, type_=QUALITY_TYPE):
    """The name of a view and the place of a segment: mostly one of this type."""
    record = judged(data)
    if not isinstance(record, Record):
        return [*any_name(rng), rng.randrange(2)]
    found = [(view, at) for view in record.views for at in range(len(view.segments))]
    right = [(view, at) for view, at in found
             if view.segments[at].type == type_]
    for members, share in ((right, 0.85), (found, 0.5)):
        if members and rng.random() < share:
            view, at = rng.choice(members)
            return [*name_of(view), at]
    name = name_in(rng, record, 0.2)
    view = find_view(record, *name)
    return [*name, place_in(rng, len(view.segments) if view else 0, 0.3)]


def quality_case(rng, data):
    """Reading of a segment of a record's bytes."""
    return lend(rng, "quality", named_segment(rng, data), [data])


def one_cell_changed(rng, values):
    """The values with another value in one cell, where there is a cell."""
    if len(values) == FIRST_BYTES:
        return values
    at = rng.randrange(FIRST_BYTES, len(values))
    new = values[at] ^ (1 << rng.randrange(values[2]))
    return values[:at] + bytes([new]) + values[at + 1:]


def values_for(rng, data, named):
    """Values to be written: from those stored, or others; some are broken."""
    *name, segment = named
    record = judged(data)
    view = find_view(record, *name) if isinstance(record, Record) else None
    if view is None or segment >= len(view.segments):
        return rng.choice((hopeless(rng), b"\1\1\1", b""))
    read = outcome("quality", named, [data])
    kind = rng.randrange(10)
    if read.number == 0 and kind < 2:
        return read.written
    if read.number == 0 and kind < 4:
        return one_cell_changed(rng, read.written)
    if read.number == 0 and kind < 6:
        return broken_values(rng, read.written)
    return fresh_values(rng, view)


def set_quality_case(rng, data):
    """Rewriting of a segment of a record's bytes."""
    named = named_segment(rng, data)
    return lend(rng, "set_quality", named, [data, values_for(rng, data, named)])


def filling_case(rng, call, type_, values_of, broken):
    """A rewriting after which the record has 32,768 bytes, or just about: 19; some
    of the values are broken all the same."""
    size = LARGEST_RECORD
    while True:
        record = random_record(rng, "small", 1.0)
        data = build(record)
        named = named_segment(rng, data, type_)
        values = values_of(rng, data, named)
        growth = outcome(call, named, [data, values]).length - len(data)
        if growth > 0:
            break
    past = min(growth, rng.choice((-1, 0, 0, 1, 1, 2, 9)))
    view = rng.choice((record.views[0], record.views[-1]))
    data = build(fill(record, size + past - growth, view))
    if rng.random() < 0.15:
        values = broken(rng, values)
    out_size = rng.choice((None, None, 0, size - 1, size, size + 1, 40000))
    return lend(rng, call, named, [data, values], out_size)


def filled_case(rng):
    """A rewriting that fills the record."""
    return filling_case(rng, "set_quality", QUALITY_TYPE, values_for, broken_values)


def quality_edges(rng, most):
    """Payloads at the edges, right payloads under other types, and the longest."""
    for width, height, payload in some(rng, payload_edges(), most):
        data = quality_record(width, height, payload)
        yield lend(rng, "quality", NAMED, [data])
    for type_ in OTHER_TYPES:
        data = quality_record(5, 1, b"\1\1\1\xf8", type_)
        yield lend(rng, "quality", NAMED, [data])
    data = full_of_cells()
    values = FIRST_BYTES + 511 * 511
    for out_size in (values, values - 1):
        yield lend(rng, "quality", FULL, [data], out_size)


def set_quality_edges(rng, most):
    """Values at the edges, types, the longest record, and results far too long."""
    edges = some(rng, values_edges(), most)
    for at, (width, height, values) in enumerate(edges):
        data = quality_record(width, height, STORED[at % len(STORED)])
        yield lend(rng, "set_quality", NAMED, [data, values])
    for type_ in OTHER_TYPES:
        data = quality_record(5, 1, b"\1\1\1\xf8", type_)
        yield lend(rng, "set_quality", NAMED, [data, b"\1\1\1" + bytes(5)])
    data = full_of_cells()
    values = outcome("quality", FULL, [data]).written
    for out_size in (len(data), len(data) - 1):
        yield lend(rng, "set_quality", FULL, [data, values], out_size)
    for bits, last in ((2, 3), (2, 4)):
        longer = values[:2] + bytes([bits]) + values[3:-1] + bytes([last])
        yield lend(rng, "set_quality", FULL, [data, longer], 65536)
    for columns, rows in ((181, 181), (256, 256), (1, 65529)):
        data = quality_record(columns, rows, b"")
        values = b"\1\1\x08" + bytes([1]) * (columns * rows)
        yield lend(rng, "set_quality", NAMED, [data, values], 65536)


def removal_edges(rng, most):
    """Removals of one line from either view, so that segments are carried or not."""
    for data in some(rng, removal_records(), most):
        for name in REMOVAL_NAMES:
            lines = bytes([0, rng.randrange(3)])
            yield lend(rng, "remove", [*name, 3], [data, lines])


def quality_stream(rng, source, most_edges):
    """Readings."""
    return edges_first(rng, quality_edges(rng, most_edges), source, quality_case)


def set_quality_stream(rng, source, most_edges):
    """Rewritings; some fill the record."""
    edges = set_quality_edges(rng, most_edges)
    return edges_first(rng, edges, source, set_quality_case, filled_case)
