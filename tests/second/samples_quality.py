"""Local quality as assertions: payloads and values worked out by hand, both ways.

samples.py runs these. They show that reading and rewriting do what request [3]
says, which faults give 24, that a rewriting changes nothing else, and what a
removal carries along.
"""

from dataclasses import replace

from answers import lent, outcome
from build import build
from judge import judge
from model import QUALITY_FAULTS, Record, Segment, View, fault_given
from quality import (Quality, cells_along, from_payload, from_values, to_payload,
                     to_values)

# The name of the view that each record here has, sample A too, and its first segment.
VIEW = [2, 0]
SEGMENT = [*VIEW, 0]

# Width, height, payload and values of a view, worked out by hand.
BY_HAND = (
    (256, 256, "40 40 04  01 23 45 67 89 AB CD EF",           # 4 by 4 cells
     [64, 64, 4, 0, 1, 2, 3, 4, 5, 6, 7, 8, 9, 10, 11, 12, 13, 14, 15]),
    (5, 3, "02 02 03  29 CB 80", [2, 2, 3, 1, 2, 3, 4, 5, 6]),  # 3 by 2, 6 zero bits
    (9, 1, "01 01 01  B2 80", [1, 1, 1, 1, 0, 1, 1, 0, 0, 1, 0, 1]),     # 7 zero bits
    (16, 16, "08 08 02  1B", [8, 8, 2, 0, 1, 2, 3]),
    (1, 1, "01 01 05  F8", [1, 1, 5, 31]),
    (4, 1, "01 01 06  04 28 3F", [1, 1, 6, 1, 2, 32, 63]),
    (3, 1, "02 01 07  FE 04", [2, 1, 7, 127, 1]),
    (2, 2, "FF 01 08  07 FF", [255, 1, 8, 7, 255]),           # 1 by 2
    (255, 256, "FF FF 01  40", [255, 255, 1, 0, 1]),
    (0, 200, "01 FF 08", [1, 255, 8]), (200, 0, "03 03 01", [3, 3, 1]))

# Payloads in a view of 5 by 3 that break a rule; with cells of 2 by 2 and 3 bits,
# three bytes follow the first three, and six of their bits are padding.
BROKEN_PAYLOADS = (
    ("", "under 3 bytes"), ("02", "under 3 bytes"), ("02 02", "under 3 bytes"),
    ("00 02 03  29 CB 80", "cell width 0"), ("02 00 03  29 CB 80", "cell height 0"),
    ("02 02 00", "bits 0"), ("02 02 09  00 00 00 00 00 00 00", "bits above 8"),
    ("02 02 03", "too few bytes"), ("02 02 03  29 CB", "too few bytes"),
    ("02 02 03  29 CB 80 00", "too many bytes"),
    ("02 02 04  29 CB 80 00", "too many bytes"),
    ("02 02 03  29 CB A0", "1 in padding"), ("02 02 03  29 CB 81", "1 in padding"),
    ("01 02 03  29 CB 80", "too few bytes"), ("03 03 03  28 CB", "too many bytes"))

BROKEN_VALUES = (
    ([], "under 3 bytes"), ([2, 2], "under 3 bytes"),
    ([0, 2, 3, 1, 2, 3, 4, 5, 6], "cell width 0"),
    ([2, 0, 3, 1, 2, 3, 4, 5, 6], "cell height 0"),
    ([2, 2, 0, 0, 0, 0, 0, 0, 0], "bits 0"),
    ([2, 2, 9, 1, 2, 3, 4, 5, 6], "bits above 8"),
    ([2, 2, 3, 1, 2, 3, 4, 5], "too few bytes"), ([2, 2, 3], "too few bytes"),
    ([2, 2, 3, 1, 2, 3, 4, 5, 6, 0], "too many bytes"),
    ([2, 2, 3, 8, 2, 3, 4, 5, 6], "value above its bits"),
    ([2, 2, 3, 1, 2, 3, 4, 5, 255], "value above its bits"))


def view_of(width, height, segments=()):
    return View(0, 2, 0, 80, width, height, [], None, list(segments))


def record_of(width, height, payload, type_=3):
    """The record of P6 with the view's size and one segment; 42 bytes and payload."""
    view = view_of(width, height, [Segment(type_, payload)])
    return build(Record(0, 197, 8, 8, 4, 16, 64, 32, [view]))


def by_hand():
    """Each payload gives its values and comes of them, through the calls too."""
    for width, height, text, listed in BY_HAND:
        payload, values = bytes.fromhex(text), bytes(listed)
        view = view_of(width, height)
        assert to_values(from_payload(payload, view)) == values, text
        assert to_payload(from_values(values, view)) == payload, text
        data = record_of(width, height, payload)
        read = outcome("quality", SEGMENT, [data])
        assert (read.number, read.place, read.length) == (0, 0, len(values))
        assert read.written == values
        assert lent(read, len(values)).number == 0
        assert lent(read, len(values) - 1).number == 20
        for stored in (payload, b"", b"\0", bytes(50)):
            old = record_of(width, height, stored)
            new = outcome("set_quality", SEGMENT, [old, values])
            assert (new.number, new.place, new.length) == (0, 0, len(data))
            assert new.written == data
            assert lent(new, len(data) - 1).number == 20


def broken():
    """Every fault gives 24, which has no place; so does another type."""
    met = set()
    view, values = view_of(5, 3), bytes(BY_HAND[1][3])
    right = bytes.fromhex(BY_HAND[1][2])
    for text, fault in BROKEN_PAYLOADS:
        payload = bytes.fromhex(text)
        found = fault_given(24, from_payload, payload, view)
        assert found == fault, (text, found)
        read = outcome("quality", SEGMENT, [record_of(5, 3, payload)])
        assert (read.number, read.place, read.length) == (24, 0, 0)
        met.add(found)
    for listed, fault in BROKEN_VALUES:
        found = fault_given(24, from_values, bytes(listed), view)
        assert found == fault, (listed, found)
        new = outcome("set_quality", SEGMENT, [record_of(5, 3, right), bytes(listed)])
        assert (new.number, new.place, new.length) == (24, 0, 0)
        met.add(found)
    for type_ in (0, 1, 2, 4, 0x0103, 0x0300):
        data = record_of(5, 3, right, type_)
        for call, more in (("quality", []), ("set_quality", [values])):
            found = outcome(call, SEGMENT, [data] + more)
            assert (found.number, found.fault) == (24, "type")
            met.add(found.fault)
            assert outcome(call, [2, 1, 0], [data] + more).number == 13
            assert outcome(call, [*VIEW, 1], [data] + more).number == 23
    assert met == set(QUALITY_FAULTS)


def numbers_of_cells():
    """Rounded upwards, by stepping over the view; and more cells than can be listed."""
    for size in list(range(520)) + [65534, 65535]:
        for cell in range(1, 256):
            assert cells_along(size, cell) == len(range(0, size, cell))
    large = view_of(65535, 65535)
    for payload in (b"\1\1\1", b"\1\1\x08", b"\1\1\1\0"):
        assert fault_given(24, from_payload, payload, large) == "too few bytes"
        assert fault_given(24, from_values, payload, large) == "too few bytes"
    wrapping = view_of(32768, 16384)
    assert fault_given(24, from_payload, b"\1\1\x08", wrapping) == "too few bytes"
    assert fault_given(24, from_values, b"\1\1\x08", wrapping) == "too few bytes"


def one_number():
    """At every number of bits, the values are the digits of one large number."""
    for bits in range(1, 9):
        for count in range(18):
            cells = [(3 * at + 5) % (1 << bits) for at in range(count)]
            number = 0
            for value in cells:
                number = (number << bits) + value
            size = -(-count * bits // 8)
            number <<= 8 * size - count * bits
            payload = bytes([1, 1, bits]) + number.to_bytes(size, "big")
            quality = Quality(1, 1, bits, cells)
            assert to_payload(quality) == payload
            assert from_payload(payload, view_of(count, 1)) == quality


def sample_a_with(sample_a, segments):
    """Sample A with these segments."""
    record = judge(sample_a)
    return build(replace(record, views=[replace(record.views[0], segments=segments)]))


def removed_from_a(sample_a):
    """Removal carries local quality along as it stands; another type gives 16."""
    segment = bytes.fromhex("0003 000F" + BY_HAND[0][2])
    data = sample_a_with(sample_a, [Segment(3, segment[4:])])
    assert data == sample_a[:11] + b"\x47" + sample_a[12:54] + b"\0\x0F" + segment
    p3 = outcome("remove", [*VIEW, 2], [sample_a, b"\0\0"]).written
    removed = outcome("remove", [*VIEW, 2], [data, b"\0\0"])
    assert (removed.number, removed.length) == (0, 63)
    assert removed.written == p3[:11] + b"\x3F" + p3[12:46] + b"\0\x0F" + segment
    assert lent(removed, 62).number == 20
    bad = [Segment(3, b""), Segment(3, b"\0\0\0"), Segment(3, segment[4:] + b"\7")]
    found = outcome("remove", [*VIEW, 2], [sample_a_with(sample_a, bad), b"\0\0"])
    assert found.number == 0
    assert [each.payload for each in judge(found.written).views[0].segments] == [
        each.payload for each in bad]
    for type_ in (0, 1, 2, 5, 0x0103, 0x0300):
        for at in range(4):
            mixed = bad[:at] + [Segment(type_, segment[4:])] + bad[at:]
            mixed_data = sample_a_with(sample_a, mixed)
            assert outcome("remove", [*VIEW, 2], [mixed_data, b"\0\0"]).number == 16
            assert outcome("remove", [*VIEW, 2], [mixed_data, b"\0\2"]).number == 15


def rewritten_in_a(sample_a):
    """A cell changed, and cells of another size: what else changes are lengths."""
    payload, values = bytes.fromhex(BY_HAND[0][2]), bytes(BY_HAND[0][3])
    data = sample_a_with(sample_a, [Segment(3, payload)])
    changed = values[:3] + b"\x0F" + values[4:]
    one_cell = outcome("set_quality", SEGMENT, [data, changed])
    assert one_cell.written == data[:63] + b"\xF1" + data[64:]
    longer = outcome("set_quality", SEGMENT, [data, bytes([32, 32, 4] + [9] * 64)])
    assert longer.written == (sample_a[:11] + b"\x5F" + sample_a[12:54] + b"\0\x27"
                              + b"\0\3\0\x27\x20\x20\4" + b"\x99" * 32)


def at_the_limit():
    """43 by 761 cells of 8 bits come to 32,768 bytes, 324 by 101 to one more: 19."""
    for width, height, number in ((43, 761, 0), (324, 101, 19)):
        values = bytes([1, 1, 8] + [255] * (width * height))
        data = record_of(width, height, b"\1\1\x08")
        new = outcome("set_quality", SEGMENT, [data, values])
        assert (new.number, new.length) == (number, 0 if number else 32768)
        at_seven_bits = values[:2] + b"\7" + values[3:]
        assert outcome("set_quality", SEGMENT, [data, at_seven_bits]).number == 24
    assert lent(outcome("quality", SEGMENT, [data]), 0).number == 24


def local_quality(sample_a):
    """All of them."""
    by_hand()
    broken()
    numbers_of_cells()
    one_number()
    at_the_limit()
    removed_from_a(sample_a)
    rewritten_in_a(sample_a)
