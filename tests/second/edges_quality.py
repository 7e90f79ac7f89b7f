"""Local quality at the edges, listed one by one and not left to chance.

Payloads and values with every number of bits and of padding bits, one byte less
and one more; first bytes at and beyond their limits; views just below and above a
whole number of cells; numbers of cells that a narrow counter would wrap; removals
from views whose segments are of local quality, of other types, or of both.
"""

from bits import with_bit_turned
from build import build
from make import fill
from model import LARGEST_RECORD, QUALITY_TYPE, Index, Line, Record, Segment, View
from quality import (FIRST_BYTES, Quality, bytes_for, cells_along, to_payload,
                     to_values)

# The segment of quality_record and that of full_of_cells: finger position and number of
# the view, and the segment's place in it. Then the names of removal_record's views.
NAMED = [7, 0, 1]
FULL = [2, 0, 0]
REMOVAL_NAMES = ((2, 0), (4, 0))
OTHER_TYPES = (0x0000, 0x0001, 0x0002, 0x0004, 0x0103, 0x0300, 0x8003, 0xFFFF)
# Columns, rows and bits; the cells, their bits or bytes pass 8, 16 or 32 bits.
WRAPPING = ((256, 1, 8), (1, 256, 8), (128, 64, 8), (256, 256, 1), (256, 256, 8),
            (21, 3121, 1), (32768, 16384, 8), (32768, 32768, 4), (46341, 46341, 2),
            (65535, 65535, 1), (65535, 65535, 8))
# The most bytes behind the first three.
MOST_REST = 1200


def quality_record(width, height, payload, type_=QUALITY_TYPE):
    """Three views; the second has the segment, between two of other types. The others
    are two views of another finger."""
    first, last = [View(number, 2, 0, 80, 16, 16, [], None, [
        Segment(QUALITY_TYPE, b"\x08\x08\x02\x1b")]) for number in range(2)]
    middle = View(0, 7, 0, 80, width, height, [], None, [
        Segment(0x0103, b"\7"), Segment(type_, payload), Segment(0x0300, b"\1\1\1")])
    return build(Record(0, 197, 8, 8, 4, 16, 64, 32, [first, middle, last]))


def pattern(count, bits):
    """Values that are not all alike; the last is all ones."""
    return [(5 * at + 1) % (1 << bits) for at in range(1, count)] + (
        [(1 << bits) - 1] if count > 0 else [])


def every_bits():
    """Up to nine cells of one point at every number of bits, as width and Quality."""
    return [(count, Quality(1, 1, bits, pattern(count, bits)))
            for bits in range(1, 9) for count in range(10)]


def payloads_of(quality):
    """The right payload, each padding bit turned, a byte less and a byte more."""
    payload = to_payload(quality)
    used = 8 * FIRST_BYTES + len(quality.cells) * quality.bits
    return [payload, payload[:-1], payload + b"\0", payload + b"\xff"] + [
        with_bit_turned(payload, bit) for bit in range(used, 8 * len(payload))]


def values_of(quality):
    """The right values, each too large by one, a byte less and a byte more."""
    values = to_values(quality)
    found = [values, values[:-1], values + b"\0", values + b"\xff"]
    if quality.bits < 8:
        found += [values[:at] + bytes([1 << quality.bits]) + values[at + 1:]
                  for at in range(FIRST_BYTES, len(values))]
    return found


def first_bytes(size):
    """A view of 5 by 5; each of the first bytes at its limits, with as many bytes
    behind as `size` has for the cells and bits, or four where there are none."""
    found = []
    for at in range(FIRST_BYTES):
        for byte in (0, 1, 2, 3, 4, 5, 7, 8, 9, 10, 16, 128, 255):
            first = [2, 3, 4]
            first[at] = byte
            more = 4
            if 0 not in first[:2]:
                more = size(cells_along(5, first[0]) * cells_along(5, first[1]),
                            first[2])
            found.append((5, 5, bytes(first) + bytes(more)))
    return found


def short_bytes():
    """Up to six bytes that are all alike, in views with and without cells."""
    return [(width, height, bytes([byte] * size)) for byte in (0, 1, 8, 255)
            for size in range(7)
            for width, height in ((0, 0), (0, 5), (5, 0), (3, 1), (65535, 65535))]


def rounded():
    """Views around whole numbers of cells, whole and with a cell too few or more.

    Each cell has 8 bits, so payload and values are the same.
    """
    found = []
    for size in (0, 1, 2, 3, 253, 254, 255, 256, 257, 509, 510, 511, 65535):
        for cell in (1, 2, 3, 128, 254, 255):
            count = cells_along(size, cell)
            for more in (-1, 0, 1):
                if 0 <= count + more <= MOST_REST:
                    rest = bytes(pattern(count + more, 8))
                    found.append((size, 7, bytes([cell, 9, 8]) + rest))
                    found.append((9, size, bytes([9, cell, 8]) + rest))
    return found


def wrapped(size):
    """Views of which a narrow counter sees fewer cells, with the bytes for these."""
    found = set()
    for columns, rows, bits in WRAPPING:
        for limit in (1 << 8, 1 << 16, 1 << 32):
            cells = columns * rows
            for more in (size(cells % limit, bits), size(cells, bits) % limit,
                         size((columns % limit) * (rows % limit), bits),
                         bytes_for(cells * bits % limit, 1),
                         (size(cells, bits) + FIRST_BYTES) % limit - FIRST_BYTES):
                if 0 <= more <= MOST_REST:
                    found.add((columns, rows, bytes([1, 1, bits]) + bytes(more)))
    return sorted(found)


def payload_edges():
    """Width, height and payload of every edge."""
    return ([(width, 1, payload) for width, quality in every_bits()
             for payload in payloads_of(quality)]
            + first_bytes(bytes_for) + short_bytes() + rounded() + wrapped(bytes_for))


def values_edges():
    """Width, height and values of every edge."""
    def size(cells, _bits):
        return cells
    return ([(width, 1, values) for width, quality in every_bits()
             for values in values_of(quality)]
            + first_bytes(size) + short_bytes() + rounded() + wrapped(size))


def full_of_cells(size=LARGEST_RECORD):
    """A record of `size` bytes that 511 by 511 cells of one bit nearly fill."""
    quality = Quality(1, 1, 1, pattern(511 * 511, 1))
    view = View(0, 2, 0, 80, 511, 511, [], None,
                [Segment(QUALITY_TYPE, to_payload(quality))])
    return build(fill(Record(0, 197, 8, 8, 4, 16, 64, 32, [view]), size))


def removal_record(segments, others):
    """Views of two fingers, three lines each; the second has the segments, the first
    the others."""
    lines = [Line(1, 64, 10, 20, [2], 0, 192, 14, 20) for _ in range(3)]
    index = Index(2, [[], [0], [2, 0]])
    views = [View(0, 2, 0, 80, 5, 3, lines, index, others),
             View(0, 4, 0, 80, 5, 3, lines, index, segments)]
    return build(Record(0, 197, 8, 8, 4, 16, 64, 32, views))


def removal_records():
    """Quality segments alone, right and broken; and another type at every place."""
    right = Quality(2, 2, 3, pattern(6, 3))
    payloads = payloads_of(right) + [b"", b"\2", b"\0\2\3\0\0\0", b"\2\0\3\0\0\0",
                                     b"\2\2\0\0\0\0", b"\2\2\x09" + bytes(7)]
    good = Segment(QUALITY_TYPE, payloads[0])
    rows = [[Segment(QUALITY_TYPE, payload)] for payload in payloads]
    rows += [[good] + row + [good] for row in rows]
    for type_ in OTHER_TYPES:
        other = Segment(type_, payloads[0])
        rows += [[other], [other, good], [good, other], [good, other, good]]
    return [removal_record(row, others) for row in rows
            for others in ([], [Segment(0x0101, b"\7")])]
