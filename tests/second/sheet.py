"""Record to sheet, and sheet to record with the refusals 21 and 22.

A sheet is cut into fields, its shape is judged over the whole sheet (21), and
only then its values over the whole sheet (22), as document 01 orders them.
"""

from bits import signed, unsigned
from build import view_header_bytes
from model import (IMPRESSIONS, MOST_LINES, MOST_VIEWS, Index, Line, Record,
                   Refusal, Segment, View, differences, refusing)

# 22 where a value is not right.
must = refusing(22)


def field_bytes(tag, value):
    """One field: tag, two-byte length, value."""
    return bytes([tag]) + len(value).to_bytes(2, "big") + bytes(value)


def line_value(line):
    """The value of an 03."""
    value = bytearray()
    value += bytes([line.start_type, line.start_direction])
    value += line.start_x.to_bytes(2, "big") + line.start_y.to_bytes(2, "big")
    value += bytes([line.end_type, line.end_direction])
    value += line.end_x.to_bytes(2, "big") + line.end_y.to_bytes(2, "big")
    value += bytes(unsigned(code, 8) for code in line.codes)
    return value


def fields_of(record):
    """The fields of a record's sheet, as pairs of tag and value."""
    fields = [(1, record.device.to_bytes(2, "big")
               + bytes([record.points, record.c, record.b, record.k,
                        record.straight, record.perpendicular,
                        record.half_turn]))]
    for view in record.views:
        fields.append((2, view_header_bytes(view)))
        for line in view.lines:
            fields.append((3, line_value(line)))
        if view.index is not None:
            fields.append((4, bytes([view.index.w])))
            for neighbours in view.index.neighbours:
                fields.append((5, b"".join(neighbour.to_bytes(2, "big")
                                           for neighbour in neighbours)))
        for segment in view.segments:
            fields.append((6, segment.type.to_bytes(2, "big") + segment.payload))
    return fields


def sheet_bytes(fields):
    """The fields one after another."""
    return b"".join(field_bytes(tag, value) for tag, value in fields)


def to_sheet(record):
    """The sheet of a record."""
    return sheet_bytes(fields_of(record))


def cut_fields(sheet):
    """The sheet's fields; 21 if one is cut."""
    fields = []
    at = 0
    while at < len(sheet):
        if at + 3 > len(sheet):
            raise Refusal(21)
        length = int.from_bytes(sheet[at + 1:at + 3], "big")
        if at + 3 + length > len(sheet):
            raise Refusal(21)
        fields.append((sheet[at], sheet[at + 3:at + 3 + length]))
        at += 3 + length
    return fields


def length_is_right(tag, length):
    """Whether a field with this tag may have a value of this length."""
    if tag == 1:
        return length == 9
    if tag == 2:
        return length == 8
    if tag == 3:
        return 12 <= length <= 267
    if tag == 4:
        return length == 1
    if tag == 5:
        return length % 2 == 0
    if tag == 6:
        return length >= 2
    return False


class Fields:
    """Fields taken one after another, by tag."""

    def __init__(self, fields):
        self.fields = fields
        self.at = 0

    def next_is(self, tag):
        return self.at < len(self.fields) and self.fields[self.at][0] == tag

    def take(self, tag):
        """The value of the next field, which must have this tag."""
        if not self.next_is(tag):
            raise Refusal(21)
        self.at += 1
        return self.fields[self.at - 1][1]

    def take_all(self, tag):
        """The values of as many fields as have this tag in a row."""
        values = []
        while self.next_is(tag):
            values.append(self.take(tag))
        return values


def judge_shape(sheet):
    """Number 21 over the whole sheet; the value of 01 and each view's values."""
    fields = cut_fields(sheet)
    for tag, value in fields:
        if not length_is_right(tag, len(value)):
            raise Refusal(21)
    rest = Fields(fields)
    head = rest.take(1)
    views = []
    while rest.next_is(2):
        view_head = rest.take(2)
        lines = rest.take_all(3)
        width, lists = None, []
        if rest.next_is(4):
            width = rest.take(4)
            lists = rest.take_all(5)
            if len(lists) != len(lines):
                raise Refusal(21)
        segments = rest.take_all(6)
        if len(lines) > MOST_LINES:
            raise Refusal(21)
        views.append((view_head, lines, width, lists, segments))
    if rest.at < len(fields):
        raise Refusal(21)
    if len(views) < 1 or len(views) > MOST_VIEWS:
        raise Refusal(21)
    return head, views


def line_from(value, record):
    """The line of an 03."""
    c, b, k = record.c, record.b, record.k
    points = []
    for at in (0, 6):
        type_, direction = value[at], value[at + 1]
        x = int.from_bytes(value[at + 2:at + 4], "big")
        y = int.from_bytes(value[at + 4:at + 6], "big")
        must(type_ <= 3)
        must(direction < 1 << b)
        must(x < 1 << c)
        must(y < 1 << c)
        points.append((type_, direction, x, y))
    codes = [signed(byte, 8) for byte in value[12:]]
    for code in codes:
        must(-(1 << (k - 1)) <= code < 1 << (k - 1))
    return Line(*points[0], codes, *points[1])


def neighbours_from(value, line, w):
    """The neighbours of an 05: highest first, at most the line, and within w."""
    neighbours = [int.from_bytes(value[at:at + 2], "big")
                  for at in range(0, len(value), 2)]
    must(len(neighbours) < 1 << w)
    for place, difference in enumerate(differences(line, neighbours)):
        must(difference >= (0 if place == 0 else 1))
        must(difference < 1 << w)
    return neighbours


def from_sheet(sheet):
    """The record that a sheet tells; 21 or 22 is raised otherwise."""
    head, views = judge_shape(sheet)
    record = Record(int.from_bytes(head[0:2], "big"), *head[2:9])
    must(record.points >= 1)
    must(1 <= record.c <= 16)
    must(4 <= record.b <= 8)
    must(2 <= record.k <= 8)
    must(record.straight >= 1)
    must(record.half_turn >= 1)
    for view_head, lines, width, lists, segments in views:
        view = View(*view_head[0:4], int.from_bytes(view_head[4:6], "big"),
                    int.from_bytes(view_head[6:8], "big"))
        must(view.number == sum(1 for earlier in record.views
                                if earlier.position == view.position))
        must(view.position <= 10)
        must(view.impression in IMPRESSIONS)
        must(view.quality <= 100)
        view.lines = [line_from(value, record) for value in lines]
        if width is not None:
            w = width[0]
            must(1 <= w <= 16)
            view.index = Index(w, [neighbours_from(value, line, w)
                                   for line, value in enumerate(lists)])
        view.segments = [Segment(int.from_bytes(value[0:2], "big"), value[2:])
                         for value in segments]
        record.views.append(view)
    return record
