"""Judges a record's bytes: gives its structure, or the refusal with its place.

The checks stand in document 01's order: 1 to 5 over the header, then view by
view in byte order, each header, length field or block found whole (6) before
it is judged, and 12 at the end.
"""

from bits import first_one, number_at, signed
from model import (HEADER_BYTES, IDENTIFIER, IMPRESSIONS, LARGEST_RECORD,
                   MOST_LINES, SMALLEST_RECORD, VERSION, VIEW_HEADER_BYTES,
                   Index, Line, Record, Refusal, Segment, View)


def judge(data):
    """The Record that `data` is; a Refusal 1 to 12 is raised otherwise."""
    record = judge_header(data)
    at = HEADER_BYTES
    for _ in range(data[14]):
        view, at = judge_view(data, at, record)
        record.views.append(view)
    if at < len(data):
        raise Refusal(12, 8 * at, "bytes after the last view")
    return record


def judge_header(data):
    """Numbers 1 to 5; the Record without its views."""
    if len(data) < SMALLEST_RECORD or len(data) > LARGEST_RECORD:
        raise Refusal(1)
    if data[0:4] != IDENTIFIER:
        raise Refusal(2, 0, "identifier")
    if data[4:8] != VERSION:
        raise Refusal(3, 32, "version")
    if number_at(data, 64, 32) != len(data):
        raise Refusal(4, 64, "record length")
    if data[14] < 1:
        raise Refusal(5, 112, "views")
    if data[15] < 1:
        raise Refusal(5, 120, "points")
    if data[16] < 1 or data[16] > 16:
        raise Refusal(5, 128, "c")
    if data[17] < 4 or data[17] > 8:
        raise Refusal(5, 136, "b")
    if data[18] < 2 or data[18] > 8:
        raise Refusal(5, 144, "k")
    if data[19] < 1:
        raise Refusal(5, 152, "straight step")
    if data[21] < 1:
        raise Refusal(5, 168, "N")
    if data[22] != 0 or data[23] != 0:
        raise Refusal(5, 176, "reserved")
    return Record(number_at(data, 96, 16), data[15], data[16], data[17],
                  data[18], data[19], data[20], data[21])


def find_whole(data, at, size, what):
    """Number 6: what starts at byte `at` and has `size` bytes passes the end."""
    if at + size > len(data):
        raise Refusal(6, 8 * at, what)


def judge_view(data, at, record):
    """One view that starts at byte `at`; gives it and the byte after it."""
    find_whole(data, at, VIEW_HEADER_BYTES, "view header")
    number, position, impression, quality = data[at:at + 4]
    earlier = 0
    for view in record.views:
        if view.position == position:
            earlier += 1
    if number != earlier:
        raise Refusal(7, 8 * at, "view number")
    if position > 10:
        raise Refusal(7, 8 * (at + 1), "finger position")
    if impression not in IMPRESSIONS:
        raise Refusal(7, 8 * (at + 2), "impression")
    if quality > 100:
        raise Refusal(7, 8 * (at + 3), "quality")
    width = number_at(data, 8 * (at + 4), 16)
    height = number_at(data, 8 * (at + 6), 16)
    skeleton_length = number_at(data, 8 * (at + 8), 16)
    at += VIEW_HEADER_BYTES

    find_whole(data, at, skeleton_length, "skeleton block")
    lines = judge_skeleton(data, at, at + skeleton_length, record)
    at += skeleton_length

    find_whole(data, at, 2, "index length")
    index_length = number_at(data, 8 * at, 16)
    at += 2
    find_whole(data, at, index_length, "index block")
    index = None
    if index_length > 0:
        index = judge_index(data, at, at + index_length, len(lines))
    at += index_length

    find_whole(data, at, 2, "extended length")
    extended_length = number_at(data, 8 * at, 16)
    at += 2
    find_whole(data, at, extended_length, "extended block")
    segments = judge_segments(data, at, at + extended_length)
    at += extended_length

    view = View(number, position, impression, quality, width, height,
                lines, index, segments)
    return view, at


def judge_skeleton(data, start, end, record):
    """Numbers 9 and 8 over the bytes from `start` to `end`; gives the lines."""
    bit = 8 * start
    end_bit = 8 * end
    lines = []
    while end_bit - bit >= 8:
        if len(lines) == MOST_LINES:
            raise Refusal(9, bit, "bits left over")
        line, bit = judge_line(data, bit, end_bit, record)
        lines.append(line)
    one = first_one(data, bit, end_bit)
    if one is not None:
        raise Refusal(8, one, "padding")
    return lines


def judge_line(data, first_bit, end_bit, record):
    """One line that starts at `first_bit`; 8 if it does not fit its block."""
    c, b, k = record.c, record.b, record.k
    end_point_bits = 2 + b + c + c
    if first_bit + end_point_bits + 8 > end_bit:
        raise Refusal(8, first_bit, "line up to its count")
    count = number_at(data, first_bit + end_point_bits, 8)
    line_bits = end_point_bits + 8 + count * k + end_point_bits
    if first_bit + line_bits > end_bit:
        raise Refusal(8, first_bit, "line behind its count")
    start = read_end_point(data, first_bit, b, c)
    bit = first_bit + end_point_bits + 8
    codes = []
    for _ in range(count):
        codes.append(signed(number_at(data, bit, k), k))
        bit += k
    end = read_end_point(data, bit, b, c)
    return Line(*start, codes, *end), first_bit + line_bits


def read_end_point(data, bit, b, c):
    """Type (2 bits), direction (b), x (c), y (c) at a line's start or end."""
    return (number_at(data, bit, 2), number_at(data, bit + 2, b),
            number_at(data, bit + 2 + b, c), number_at(data, bit + 2 + b + c, c))


def judge_index(data, start, end, line_count):
    """Number 10 over an index block that is there; gives the Index."""
    w = data[start]
    if w < 1 or w > 16:
        raise Refusal(10, 8 * start, "w")
    bit = 8 * (start + 1)
    end_bit = 8 * end
    neighbours = []
    for line in range(line_count):
        if bit + w > end_bit:
            raise Refusal(10, bit, "count past the end")
        count = number_at(data, bit, w)
        bit += w
        listed = []
        total = 0
        for place in range(count):
            if bit + w > end_bit:
                raise Refusal(10, bit, "difference past the end")
            difference = number_at(data, bit, w)
            if place > 0 and difference < 1:
                raise Refusal(10, bit, "later difference of 0")
            total += difference
            if total > line:
                raise Refusal(10, bit, "sum above the line")
            listed.append(line - total)
            bit += w
        neighbours.append(listed)
    judge_leftover(data, bit, end_bit)
    return Index(w, neighbours)


def judge_leftover(data, bit, end_bit):
    """Number 10 over the bits behind the last list: 0 to 7, and all zero.

    The first 1 is the place wherever it stands, also behind the eighth bit.
    """
    one = first_one(data, bit, end_bit)
    eighth = bit + 7
    if one is None:
        if eighth < end_bit:
            raise Refusal(10, eighth, "eighth bit")
    elif eighth >= end_bit:
        raise Refusal(10, one, "1 of up to 7 bits")
    elif one < eighth:
        raise Refusal(10, one, "1 before the eighth bit")
    elif one == eighth:
        raise Refusal(10, one, "1 at the eighth bit")
    else:
        raise Refusal(10, one, "1 behind the eighth bit")


def judge_segments(data, start, end):
    """Number 11 over an extended block; gives the segments that fill it."""
    segments = []
    at = start
    while at < end:
        if end - at < 4:
            raise Refusal(11, 8 * at, "bytes over")
        length = number_at(data, 8 * (at + 2), 16)
        if length < 4:
            raise Refusal(11, 8 * (at + 2), "length under 4")
        if length > end - at:
            raise Refusal(11, 8 * (at + 2), "length past the block")
        segments.append(Segment(number_at(data, 8 * at, 16),
                                bytes(data[at + 4:at + length]), 8 * (at + 4)))
        at += length
    return segments
