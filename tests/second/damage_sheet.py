"""Damages sheets: their fields (21), their values (22), or their size (19).

Each kind works on the list of fields of a right record's sheet, or on its
bytes. What a sheet is refused with is decided by sheet.py, not assumed here.
"""

from dataclasses import replace

from make import add_view, fill, full_of_codes, many_lines, narrow_header
from make import random_record
from model import LARGEST_RECORD, MOST_LINES, MOST_VIEWS, Segment, least_width
from sheet import fields_of, sheet_bytes, to_sheet


def places_of(fields, tag):
    return [place for place, found in enumerate(fields) if found[0] == tag]


def changed(value, at, byte):
    """The value with one byte exchanged."""
    return value[:at] + bytes([byte]) + value[at + 1:]


def field_order(rng, fields, _record):
    """A field dropped, doubled, moved or given another tag."""
    place = rng.randrange(len(fields))
    tag, value = fields[place]
    kind = rng.choice(("drop", "double", "move", "tag"))
    if kind == "drop":
        del fields[place]
    elif kind == "double":
        fields.insert(place, fields[place])
    elif kind == "move":
        fields.insert(rng.randrange(len(fields)), fields.pop(place))
    else:
        fields[place] = (rng.choice((0, 1, 2, 3, 4, 5, 6, 7, 255, tag ^ 128)), value)
    return sheet_bytes(fields)


def field_length(rng, fields, _record):
    """A value longer or shorter, at the limits of its tag where there are any."""
    place = rng.randrange(len(fields))
    tag, value = fields[place]
    size = rng.choice((len(value) + 1, len(value) - 1, len(value) + 2, 0, 1, 2,
                       11, 12, 267, 268))
    value = (bytes(value) + bytes(300))[:max(0, size)]
    fields[place] = (tag, value)
    return sheet_bytes(fields)


def stated_field_length(rng, fields, _record):
    """A field's stated length is off while its bytes stay."""
    place = rng.randrange(len(fields))
    before = sheet_bytes(fields[:place])
    tag, value = fields[place]
    stated = rng.choice((len(value) + 1, max(0, len(value) - 1), 65535,
                         rng.randint(0, 300)))
    return (before + bytes([tag]) + stated.to_bytes(2, "big") + bytes(value)
            + sheet_bytes(fields[place + 1:]))


def cut_sheet(rng, fields, _record):
    sheet = sheet_bytes(fields)
    return sheet[:rng.randrange(len(sheet))]


def bytes_after_sheet(rng, fields, _record):
    return sheet_bytes(fields) + rng.randbytes(rng.randint(1, 3))


def number_of_lists(rng, fields, _record):
    """An 05 too few or too many."""
    places = places_of(fields, 5)
    if places:
        if rng.random() < 0.5:
            del fields[rng.choice(places)]
        else:
            fields.insert(rng.choice(places), (5, b""))
    return sheet_bytes(fields)


def head_value(rng, fields, _record):
    """A value of 01 at or beyond its limits."""
    at = rng.choice((2, 3, 4, 5, 6, 8))
    byte = rng.choice({2: (0, 1, 255), 3: (0, 17, 1, 16), 4: (3, 9, 4, 8),
                       5: (1, 9, 2, 8), 6: (0, 1, 255), 8: (0, 1, 255)}[at])
    fields[0] = (1, changed(fields[0][1], at, byte))
    return sheet_bytes(fields)


def view_head_value(rng, fields, _record):
    """A value of 02 at or beyond its limits."""
    place = rng.choice(places_of(fields, 2))
    value = fields[place][1]
    at = rng.randint(0, 3)
    byte = rng.choice(((value[0] ^ 1, (value[0] + 1) % 256, 255), (11, 255, 10),
                       (4, 5, 6, 7, 10, 255), (100, 101, 255))[at])
    fields[place] = (2, changed(value, at, byte))
    return sheet_bytes(fields)


def line_value_out(rng, fields, record):
    """Type, direction, x, y or a code: the largest that fits, or one more."""
    places = places_of(fields, 3)
    if not places:
        return sheet_bytes(fields)
    place = rng.choice(places)
    value = bytes(fields[place][1])
    kind = rng.choice(("type", "direction", "coordinate", "code"))
    if kind == "type":
        value = changed(value, rng.choice((0, 6)), rng.choice((3, 4, 255)))
    elif kind == "direction":
        byte = rng.choice(((1 << record.b) - 1, min(255, 1 << record.b), 255))
        value = changed(value, rng.choice((1, 7)), byte)
    elif kind == "coordinate":
        at = rng.choice((2, 4, 8, 10))
        most = (1 << record.c) - 1
        new = rng.choice((most, min(65535, most + 1), 65535))
        value = value[:at] + new.to_bytes(2, "big") + value[at + 2:]
    else:
        half = 1 << (record.k - 1)
        code = rng.choice((half - 1, half, -half, -half - 1)) % 256
        value = (value[:12] + bytes([code]) + value[12:])[:267]
    fields[place] = (3, value)
    return sheet_bytes(fields)


def width_value(rng, fields, record):
    """w out of range, or too narrow for the lists."""
    places = places_of(fields, 4)
    if places:
        least = [least_width(view.index.neighbours) for view in record.views
                 if view.index is not None]
        at = rng.randrange(len(places))
        w = rng.choice((0, 17, 255, 1, 16, least[at], least[at] - 1))
        fields[places[at]] = (4, bytes([w]))
    return sheet_bytes(fields)


def list_value(rng, fields, record):
    """A list that does not fall, passes its line, or does not fit w."""
    views = [view for view in record.views if view.index and view.lines]
    places = places_of(fields, 5)
    if not views:
        return sheet_bytes(fields)
    at = rng.randrange(len(places))
    line = at
    for view in views:
        if line < len(view.lines):
            break
        line -= len(view.lines)
    old = [int.from_bytes(fields[places[at]][1][i:i + 2], "big")
           for i in range(0, len(fields[places[at]][1]), 2)]
    new = rng.choice((old + old[-1:], old[::-1], [line + 1], [line], [line, line],
                      [line, 0], [0], [0, 0], [0, 65535], [65535], old + [0],
                      list(range(line, -1, -1))))
    fields[places[at]] = (5, b"".join(n.to_bytes(2, "big") for n in new))
    return sheet_bytes(fields)


def turned_bit(rng, fields, _record):
    sheet = bytearray(sheet_bytes(fields))
    for _ in range(rng.choice((1, 1, 2))):
        at = rng.randrange(len(sheet))
        sheet[at] ^= 1 << rng.randrange(8)
    return bytes(sheet)


def twice(rng, fields, record):
    """Two damages in one sheet, so that 21 and 22 meet."""
    first, second = rng.choice(VALUE_KINDS), rng.choice(SHAPE_KINDS)
    first(rng, fields, record)
    return second(rng, fields, record) if fields else b""


SHAPE_KINDS = (field_order, field_length, stated_field_length, cut_sheet,
               bytes_after_sheet, number_of_lists)
VALUE_KINDS = (head_value, view_head_value, line_value_out, width_value,
               list_value)
KINDS = SHAPE_KINDS + VALUE_KINDS + (twice, turned_bit, line_value_out, list_value)


def damaged_sheet(rng, record, kind):
    """The bytes of a record's sheet damaged in one way."""
    return kind(rng, fields_of(record), record)


def with_segments(record, sizes):
    """The record with segments of these payload sizes in its last view."""
    view = record.views[-1]
    segments = [Segment(at, bytes(size)) for at, size in enumerate(sizes)]
    return replace(record, views=record.views[:-1]
                   + [replace(view, segments=segments)])


def long_sheets(rng):
    """Sheets at the limits of views, lines and bytes; right and damaged."""
    sheets = []
    small = random_record(rng, "small")
    for size in (LARGEST_RECORD, LARGEST_RECORD + 1):
        sheets.append(to_sheet(full_of_codes(rng, size)))
        sheets.append(to_sheet(fill(random_record(rng, "small"), size)))
    for sizes in ((65531,), (65533,), (65532,), (32000, 32000, 1524), (60000,) * 3):
        sheets.append(to_sheet(with_segments(small, sizes)))
    for lines in (MOST_LINES, MOST_LINES + 1):
        for w in (None, 2, 16):
            sheets.append(to_sheet(many_lines(rng, lines, w)))
    for views in (MOST_VIEWS, MOST_VIEWS + 1, MOST_VIEWS + 2):
        record = narrow_header(rng)
        for place in range(views):
            add_view(rng, record, place % 11, place % 2, 0, "any", 0.0)
        sheets.append(to_sheet(record))
    wide = many_lines(rng, 1000, 16)
    wide.views[0].index.neighbours = [list(range(line, max(-1, line - 40), -1))
                                      for line in range(1000)]
    sheets.append(to_sheet(wide))
    return sheets
