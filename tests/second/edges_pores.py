"""Payloads of pores at the edges, listed one by one and not left to chance.

Every number of bits and of padding bits, zero elements in the padding, one line less
and one more; the first bytes at and beyond their limits; elements of all ones at every
end of a line; every byte that can stand for few lines; views with 1,024 lines, and
payloads that fill a record.
"""

from functools import lru_cache

from bits import with_bit_turned
from build import build
from make_pores import elements_of, packed
from model import LARGEST_RECORD, MOST_LINES, PORES_TYPE, Line, Record, Segment, View
from pores import FIRST_BYTES, Pores, all_ones, longest_step, to_payload

# The segment of pores_record: finger position and number of the view, and its place.
NAMED = [7, 0, 1]
OTHER_TYPES = (0x0000, 0x0001, 0x0002, 0x0003, 0x0005, 0x0104, 0x0400, 0x8004, 0xFFFF)
RESOLUTION = 200
EVERY_E = range(2, 9)


def plain_lines(count):
    return [Line(1, 4, 0, 1, [], 0, 12, 1, 0)] * count


@lru_cache(maxsize=16)
def pores_record(count, payload, type_=PORES_TYPE):
    """Three views; the second has so many lines, and the segment between two of other
    types. The others are two views of another finger, which have one and three lines,
    and right pores."""
    first, last = [View(number, 2, 0, 80, 16, 16, plain_lines(lines), None, [
        Segment(PORES_TYPE, packed(RESOLUTION, 4, [0, 1] * lines))])
                   for number, lines in enumerate((1, 3))]
    middle = View(0, 7, 0, 80, 16, 16, plain_lines(count), None, [
        Segment(0x0103, b"\7"), Segment(type_, payload), Segment(0x0300, b"\1\1\1")])
    return build(Record(0, 197, 1, 4, 2, 16, 64, 32, [first, middle, last]))


def pattern(count, e):
    """Distances of so many lines that are not all alike; some lines have none."""
    step = longest_step(e)
    lengths = (1, step, step + 1, 2, 2 * step, 2 * step + 1, 3 * step + 1)
    return [[max(1, lengths[(line + at) % 7] - at // 3) for at in range(line * 2 % 3)]
            for line in range(count)]


def every_e():
    """Up to nine lines at every number of bits, as Pores."""
    return [Pores(100 * e, e, pattern(count, e))
            for e in EVERY_E for count in range(10)]


def padding_turned(payload, used):
    """The payload with each bit turned that stands behind the used ones."""
    return [with_bit_turned(payload, bit)
            for bit in range(8 * FIRST_BYTES + used, 8 * len(payload))]


def payloads_of(pores):
    """Lines of a view and payload: the right one, with a line less and a line more in
    the view, a byte less and more, a padding bit turned, another first element."""
    count, payload, elements = len(pores.lines), to_payload(pores), elements_of(pores)
    found = [(lines, payload) for lines in (count, count + 1, max(0, count - 1))]
    others = [payload[:-1], payload + b"\0", payload + b"\1", payload + b"\x80"]
    others += padding_turned(payload, len(elements) * pores.e)
    for first in ([], [1], [all_ones(pores.e)]):
        others.append(packed(RESOLUTION, pores.e, first + elements[1:]))
    return found + [(count, other) for other in others]


def first_bytes():
    """Every limit of e with up to two zero bytes behind, and of the resolution."""
    found = [(count, bytes([0, 200, e]) + bytes(size))
             for e in (0, 1, 2, 3, 4, 5, 6, 7, 8, 9, 10, 16, 128, 255)
             for size in range(3) for count in range(3)]
    return found + [(1, packed(resolution, 4, [0, 9]))
                    for resolution in (0, 1, 199, 200, 255, 256, 32768, 65535)]


def zero_bytes():
    """Zero bytes alone, for each number of lines that they can stand for, and for one
    less and one more: too few elements, and eight bits over."""
    return [(count, bytes([0, 200, e]) + bytes(size)) for e in EVERY_E
            for size in range(5)
            for count in range(max(0, (8 * size - 8) // e), 8 * size // e + 2)]


def short_bytes():
    """Up to seven bytes that are all alike, in views with few lines and with none."""
    return [(count, bytes([byte] * size)) for byte in (0, 1, 2, 4, 8, 9, 255)
            for size in range(8) for count in (0, 1, 2, 5)]


def rows_of_ones(e):
    """Elements of one line, some of which end in all ones."""
    step, ones = longest_step(e), all_ones(e)
    return ([], [1], [step], [ones], [ones, 1], [ones, step], [ones, ones],
            [ones, ones, 1], [1, ones], [step, ones], [ones, 1, ones, step])


def to_the_end(e, series, rest):
    """The elements behind so many of 1 that `rest` bits are left over; None if no
    number of them does it."""
    for more in range(8):
        elements = [0] + [1] * more + series
        if -len(elements) * e % 8 == rest:
            return elements
    return None


def line_ends(e):
    """Lines that end in each way before another line, before every number of padding
    bits, and at the end; where zero elements are padding they are lines as well."""
    found = []
    for series in rows_of_ones(e):
        found += [(2, packed(RESOLUTION, e, [0] + series + [0])),
                  (2, packed(RESOLUTION, e, [0] + series + [0, 1])),
                  (3, packed(RESOLUTION, e, [0, 2] + [0] + series + [0] + series))]
        for rest in range(8):
            elements = to_the_end(e, series, rest)
            if elements is not None:
                payload = packed(RESOLUTION, e, elements)
                found += [(1 + more, payload) for more in range(rest // e + 2)]
                found += [(1, turned) for turned in
                          padding_turned(payload, len(elements) * e)]
    return found


def every_byte():
    """Every byte behind the first three, where e is 2 or 3; some bytes where it is
    more, and some with another byte before them."""
    found = [(count, bytes([0, 200, e, byte])) for e, most in ((2, 5), (3, 3))
             for byte in range(256) for count in range(most + 1)]
    found += [(count, bytes([0, 200, e, byte])) for e in range(4, 9)
              for byte in range(0, 256, 5) for count in range(3)]
    return found + [(count, bytes([0, 200, e, first, byte])) for e in EVERY_E
                    for first in (0x00, 0x13, 0x1F) for byte in range(0, 256, 7)
                    for count in (1, 2, 3)]


def many_lines():
    """1,023 to 1,025 lines' pores in a view with 1,024 lines, and no pores at all."""
    found = []
    for e in (2, 7, 8):
        lines = [[]] * (MOST_LINES - 2)
        for more in (-1, 0, 1):
            middle = lines[:len(lines) + more]
            found.append(Pores(RESOLUTION, e, [[1]] + middle + [[longest_step(e) + 1]]))
    found.append(Pores(RESOLUTION, 3, [[]] * MOST_LINES))
    return [(MOST_LINES, to_payload(pores)) for pores in found]


def payload_edges():
    """Lines and payload of every edge; those that no shorter list may leave out come
    first."""
    right = [edge for pores in every_e() for edge in payloads_of(pores)[:1]]
    others = [edge for pores in every_e() for edge in payloads_of(pores)[1:]]
    ends = [edge for e in EVERY_E for edge in line_ends(e)]
    return (right + many_lines() + first_bytes(),
            others + zero_bytes() + short_bytes() + ends + every_byte())


def room_of_payload(count):
    """The bytes that a payload has in pores_record where the record is the largest."""
    return LARGEST_RECORD - len(pores_record(count, b""))


def full_of_pores(e, distance):
    """A record of 32,768 bytes that the pores of one line nearly fill, all of them at
    this distance, which takes one element."""
    elements = 8 * (room_of_payload(1) - FIRST_BYTES) // e
    pores = Pores(RESOLUTION, e, [[distance] * (elements - 1)])
    return pores_record(1, to_payload(pores))
