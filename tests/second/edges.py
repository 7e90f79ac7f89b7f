"""Records at the edges, listed one by one and not left to chance.

Every fault that has a place is there, every byte of a small record is cut,
every bit of a few small records is turned, every header value stands at and
beyond its limits, and first headings are rounded in every way.
"""

from bits import with_bit_turned
from build import build, parts_of, put_together
from damage import with_length
from faults import all_faults
from model import (IMPRESSIONS, LARGEST_RECORD, MOST_LINES, Index, Line, Record,
                   Segment, View)


def empty_view_record():
    """One view, no lines, no index, no segments: 38 bytes."""
    return Record(0, 100, 8, 8, 4, 16, 64, 32, [View(0, 2, 0, 80, 256, 256)])


def two_line_record():
    """Two lines that are neighbours."""
    record = Record(0x1234, 197, 7, 5, 3, 16, 64, 32)
    lines = [Line(1, 9, 5, 6, [2, -4, 3], 2, 8, 100, 127),
             Line(3, 31, 127, 0, [], 0, 0, 0, 0)]
    record.views = [View(0, 2, 9, 100, 256, 255, lines, Index(1, [[], [0]]))]
    return record


def two_view_record():
    """Two views of one finger, with a line next to itself, and segments."""
    record = Record(0xFFFF, 255, 4, 4, 2, 1, 0, 1)
    first = View(0, 10, 3, 0, 0, 0, [Line(0, 1, 2, 3, [-2, 1], 3, 4, 5, 6)],
                 Index(3, [[0]]), [Segment(1, b""), Segment(513, b"\1\2\3")])
    second = View(1, 10, 8, 1, 65535, 1,
                  [Line(2, 15, 0, 15, [0], 1, 0, 15, 1) for _ in range(3)],
                  Index(2, [[], [1, 0], [0]]), [Segment(65535, b"\xff")])
    record.views = [first, second]
    return record


def small_records():
    return [build(empty_view_record()), build(two_line_record()),
            build(two_view_record())]


def around_quarters(b):
    """The directions up to 2 away from a quarter of the turn; at b = 4 all."""
    return sorted({(quarter * (1 << (b - 2)) + away) % (1 << b)
                   for quarter in range(4) for away in range(-2, 3)})


def heading_record(half_turn, b):
    """Lines with the code 0 alone, so that each trail is twice its first heading."""
    record = Record(0, 1, 1, b, 2, 1, 0, half_turn, [View(0, 1, 0, 0, 0, 0)])
    record.views[0].lines = [Line(1, direction, 0, 1, [0], 2, 3, 1, 0)
                             for direction in around_quarters(b)]
    return record


def heading_records():
    """N at its limits and at 32, each at the least b and at the greatest."""
    return [build(heading_record(half_turn, b))
            for half_turn in (1, 32, 255) for b in (4, 8)]


def cut_everywhere():
    """Every beginning of a small record, the stated length kept and mended."""
    data = build(two_view_record())
    cases = []
    for size in range(len(data)):
        cases.append(data[:size])
        if size >= 12:
            cases.append(with_length(data[:size]))
    return cases


def turned_everywhere():
    """Every bit of the small records turned, one at a time."""
    cases = []
    for data in small_records():
        for bit in range(8 * len(data)):
            cases.append(with_bit_turned(data, bit))
    return cases


def header_values():
    """Every header byte at 0, 1, around each limit, and 254 and 255."""
    cases = []
    for at in range(24):
        if 8 <= at < 12:
            continue
        for value in (0, 1, 2, 3, 4, 5, 7, 8, 9, 15, 16, 17, 254, 255):
            parts = parts_of(empty_view_record())
            parts.header[at] = value
            cases.append(put_together(parts))
    return cases


def view_header_values():
    """The four judged bytes of the second view's header at many values."""
    cases = []
    values = ((0, 1, 2, 255), range(13), range(13), (0, 99, 100, 101, 255))
    for at in range(4):
        for value in values[at]:
            parts = parts_of(two_view_record())
            parts.views[1].header[at] = value
            cases.append(put_together(parts))
    for impression in IMPRESSIONS:
        parts = parts_of(empty_view_record())
        parts.views[0].header[2] = impression
        cases.append(put_together(parts))
    return cases


def index_blocks():
    """Short index blocks over no lines and over two lines, right and not."""
    cases = []
    for record in (empty_view_record(), two_line_record()):
        for w in list(range(19)) + [128, 255]:
            for rest in (b"", b"\0", b"\x01", b"\x80", b"\0\0", b"\0\1", b"\xff" * 4,
                         bytes(3), bytes(4), bytes(5), b"\x20", b"\x60", b"\xb0"):
                parts = parts_of(record)
                parts.views[0].index = bytes([w]) + rest
                cases.append(put_together(parts))
    return cases


def ends_in_skeleton():
    """A line cut at every byte, at every c and b, where the record ends too."""
    cases = []
    for c in range(1, 17):
        for b in range(4, 9):
            record = Record(0, 1, c, b, 3, 1, 0, 9, [View(0, 1, 0, 0, 0, 0)])
            record.views[0].lines = [Line(3, 1, 0, 1, [1, -1], 2, 3, 0, 1)]
            parts = parts_of(record)
            block = parts.views[0].skeleton
            for size in range(1, len(block)):
                parts.views[0].skeleton = block[:size]
                cases.append(with_length(put_together(parts)[:-4]))
    return cases


def ends_in_index():
    """An index over two lines cut at every byte, where the record ends too."""
    cases = []
    for w in range(1, 17):
        for filler in (0x00, 0x01, 0x55, 0xFF):
            for size in range(0, 7):
                parts = parts_of(two_line_record())
                parts.views[0].index = bytes([w] + [filler] * size)
                cases.append(with_length(put_together(parts)[:-2]))
    return cases


def extended_blocks():
    """Short extended blocks: lengths 0 to 6 in blocks of 0 to 9 bytes."""
    cases = []
    for size in range(10):
        for length in range(7):
            parts = parts_of(two_line_record())
            parts.views[0].extended = (b"\0\7" + length.to_bytes(2, "big")
                                       + bytes([0, 0, 0, 4, 9]))[:size]
            cases.append(put_together(parts))
    return cases


def line_edges():
    """1,023 to 1,025 lines with nothing, zero bytes or a 1 behind them."""
    cases = []
    for count in (MOST_LINES - 1, MOST_LINES, MOST_LINES + 1):
        record = Record(0, 1, 1, 5, 2, 1, 0, 1, [View(0, 0, 0, 0, 0, 0)])
        record.views[0].lines = [Line(3, 7, 1, 0, [], 0, 1, 0, 1)] * count
        record.views[0].lines[-1:] = [Line(0, 0, 0, 0, [1], 0, 1, 0, 0)]
        for change in (lambda block: block, lambda block: block + b"\0",
                       lambda block: block + b"\1", lambda block: block[:-1],
                       lambda block: block[:-1] + bytes([block[-1] | 1])):
            parts = parts_of(record)
            parts.views[0].skeleton = change(parts.views[0].skeleton)
            cases.append(put_together(parts))
    return cases


def size_edges():
    """32,767 to 32,769 bytes that a segment fills, and bytes with no header."""
    cases = [b"", bytes(23), bytes(24), bytes(LARGEST_RECORD),
             bytes(LARGEST_RECORD + 1), build(empty_view_record()) + bytes(65536)]
    for size in (LARGEST_RECORD - 1, LARGEST_RECORD, LARGEST_RECORD + 1):
        record = empty_view_record()
        record.views[0].segments = [Segment(5, bytes(size - 38 - 4))]
        cases.append(put_together(parts_of(record)))
    return cases


def edge_records():
    """All of them; those that no shorter list may leave out come first."""
    first = ([data for _, _, _, data in all_faults()] + small_records()
             + size_edges() + line_edges() + view_header_values())
    return first, (cut_everywhere() + turned_everywhere() + header_values()
                   + index_blocks() + extended_blocks() + ends_in_skeleton()
                   + ends_in_index())
