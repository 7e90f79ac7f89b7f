"""Pores as assertions: payloads and numbers worked out by hand, both ways.

samples.py runs these. They show that reading and rewriting do what request [7] says,
which faults give 26, that one payload stands for given distances, and where 19 starts.
What a removal leaves of pores stands in samples_pore_removals.py.
"""

import re

from answers import lent, outcome
from build import build
from model import PORE_FAULTS, Line, Record, Segment, View, fault_given
from pores import (LARGEST_NUMBER, Pores, bytes_of, from_numbers, from_payload,
                   payload_size, to_numbers, to_payload)

# The name of the view that each record here has, and its first segment.
VIEW = [2, 0]
SEGMENT = [*VIEW, 0]

# Lines of a view, payload and numbers, worked out by hand. The elements of each stand
# beside it; a distance of n passes comes to n times 2^e - 2 and the last element.
BY_HAND = (
    (3, "00C8 04  01 EF 10 0F F1",                  # 0 1 E F1  0  0 FF1
     [200, 4, 3, 1, 14, 15, 0, 1, 29]),
    (1, "0000 02  1B 7B D0",                        # 00 01 10 1101 1110 111101, 4 over
     [0, 2, 5, 1, 2, 3, 4, 5]),
    (2, "FFFF 03  1B 91 F9",                        # 0 6 71  0 771, none over
     [65535, 3, 2, 6, 7, 1, 13]),
    (1, "0001 05  07 BE 10 80",                     # 0 30 31+1 1, 7 over
     [1, 5, 3, 30, 31, 1]),
    (3, "0100 06  00 0F 80 FC 10",                  # 0  0 62  0 63+1, 4 over
     [256, 6, 0, 1, 62, 1, 63]),
    (1, "012C 07  01 FB F8 1F FF C0 80",            # 0 126 127+1 127+127+1, 7 over
     [300, 7, 3, 126, 127, 253]),
    (2, "01F4 08  00 FE FF 01 FF FE FF FF 01 00", [500, 8, 4, 254, 255, 508, 509, 0]),
    (0, "1234 08", [0x1234, 8]), (0, "0000 02", [0, 2]),
    (1, "00C8 02  00", [200, 2, 0]), (2, "00C8 02  00", [200, 2, 0, 0]),
    (3, "00C8 02  00", [200, 2, 0, 0, 0]), (4, "00C8 02  00", [200, 2, 0, 0, 0, 0]),
    (2, "00C8 02  04", [200, 2, 0, 1, 1]),
    (1, "00C8 02  18", [200, 2, 2, 1, 2]), (1, "00C8 08  00", [200, 8, 0]),
    (1, "00C8 07  00", [200, 7, 0]), (2, "00C8 07  00 00", [200, 7, 0, 0]),
    (2, "00C8 04  00", [200, 4, 0, 0]), (1, "00C8 04  00", [200, 4, 0]))

# Payloads in a view of two lines that break a rule. Right ones are 00C8 04 01 02, of
# the elements 0 1 0 2, 00C8 03 04 20, of 0 1 0 2 too and four bits over, and
# 00C8 05 00 40, of 0 1 0 and one bit over.
BROKEN_PAYLOADS = (
    ("", "under 3 bytes"), ("00", "under 3 bytes"), ("00C8", "under 3 bytes"),
    ("00C8 00", "e under 2"), ("00C8 01  00", "e under 2"),
    ("00C8 09  00 00 00", "e above 8"), ("00C8 FF", "e above 8"),
    ("00C8 04", "too few lines"), ("00C8 04  01", "too few lines"),
    ("00C8 04  01 23", "too few lines"), ("00C8 08  00", "too few lines"),
    ("00C8 07  00", "too few lines"), ("00C8 05  01", "too few lines"),
    ("00C8 04  10 02", "first element not zero"),
    ("00C8 02  40", "first element not zero"),
    ("00C8 04  01 F0 02", "all ones before a line"),
    ("00C8 04  0F 00", "all ones before a line"),
    ("00C8 03  1C 00", "all ones before a line"),
    ("00C8 04  01 02 F0", "all ones before padding"),
    ("00C8 03  04 2E", "all ones before padding"),
    ("00C8 04  01 0F", "all ones at the end"),
    ("00C8 08  00 00 FF", "all ones at the end"),
    ("00C8 04  01 02 00", "8 zero bits over"), ("00C8 02  00 00", "8 zero bits over"),
    ("00C8 08  00 00 00", "8 zero bits over"),
    ("00C8 04  01 02 01", "8 bits over, 1 among them"),
    ("00C8 04  00 00 10", "8 bits over, 1 among them"),
    ("00C8 05  00 41", "1 in under e bits"),
    ("00C8 03  04 21", "1 behind a zero element"),
    ("00C8 02  01", "1 behind a zero element"))

# Numbers for a view of two lines that break a rule.
BROKEN_NUMBERS = (
    ([], "under 2 numbers"), ([200], "under 2 numbers"),
    ([65536, 4, 0, 0], "resolution above 65535"),
    ([LARGEST_NUMBER, 4, 0, 0], "resolution above 65535"),
    ([200, 0, 0, 0], "e under 2"), ([200, 1, 0, 0], "e under 2"),
    ([200, 9, 0, 0], "e above 8"), ([200, 260, 0, 0], "e above 8"),
    ([200, 4], "too few lines"), ([200, 4, 0], "too few lines"),
    ([200, 4, 1, 1], "too few lines"), ([200, 4, 1], "count too high"),
    ([200, 4, 0, 1], "count too high"), ([200, 4, 2, 1, 1], "too few lines"),
    ([200, 4, 3, 1, 1], "count too high"),
    ([200, 4, LARGEST_NUMBER, 1, 0], "count too high"),
    ([200, 4, 0, LARGEST_NUMBER - 3], "count too high"),
    ([200, 4, 1, 0, 0], "distance 0"), ([200, 4, 0, 2, 5, 0], "distance 0"),
    ([200, 4, 0, 0, 0], "numbers over"), ([200, 4, 0, 1, 5, 6], "numbers over"))


def record_of(lines, payload, type_=4):
    """The record of P6 with so many lines and one segment; with one line it has 50
    bytes and the payload."""
    view = View(0, 2, 0, 80, 256, 256, [Line(0, 0, 0, 0, [], 0, 0, 0, 0)] * lines, None,
                [Segment(type_, payload)])
    return build(Record(0, 197, 8, 8, 4, 16, 64, 32, [view]))


def by_hand():
    """Each payload gives its numbers and comes of them, through the calls too."""
    for lines, text, listed in BY_HAND:
        payload, numbers = bytes.fromhex(text), bytes_of(listed)
        assert to_numbers(from_payload(payload, lines)) == numbers, text
        pores = from_numbers(numbers, lines)
        assert to_payload(pores) == payload, text
        assert payload_size(pores) == len(payload), text
        data = record_of(lines, payload)
        read = outcome("pores", SEGMENT, [data])
        assert (read.number, read.place, read.length) == (0, 0, len(listed))
        assert read.written == numbers
        for room, number in ((len(numbers), 0), (len(numbers) + 3, 0),
                             (len(numbers) - 1, 20)):
            assert lent(read, room).number == number
        for stored in (payload, b"", b"\1", payload + b"\xff"):
            new = outcome("set_pores", SEGMENT, [record_of(lines, stored), numbers])
            assert (new.number, new.place, new.length) == (0, 0, len(data))
            assert new.written == data
            assert lent(new, len(data) - 1).number == 20


def broken():
    """Every fault gives 26, which has no place; so does another type."""
    met = set()
    right, numbers = bytes.fromhex("00C8 04  01 02"), bytes_of([200, 4, 1, 1, 1, 2])
    for text in ("00C8 04  01 02", "00C8 03  04 20", "00C8 05  00 40"):
        assert fault_given(26, from_payload, bytes.fromhex(text), 2) == ""
    for text, fault in BROKEN_PAYLOADS:
        payload = bytes.fromhex(text)
        found = fault_given(26, from_payload, payload, 2)
        assert found == fault, (text, found)
        read = outcome("pores", SEGMENT, [record_of(2, payload)])
        assert (read.number, read.place, read.length) == (26, 0, 0)
        met.add(found)
    lists = [(bytes_of(listed), fault) for listed, fault in BROKEN_NUMBERS]
    lists += [(data, "cut number") for data in (b"\0", numbers[:-1], numbers + b"\0\0")]
    for data, fault in lists:
        found = fault_given(26, from_numbers, data, 2)
        assert found == fault, (data, found)
        new = outcome("set_pores", SEGMENT, [record_of(2, right), data])
        assert (new.number, new.place, new.length) == (26, 0, 0)
        met.add(found)
    for type_ in (0, 1, 2, 3, 5, 0x0104, 0x0400):
        data = record_of(2, right, type_)
        for call, more in (("pores", []), ("set_pores", [numbers])):
            found = outcome(call, SEGMENT, [data] + more)
            assert (found.number, found.fault) == (26, "type")
            met.add(found.fault)
            assert outcome(call, [2, 1, 0], [data] + more).number == 13
            assert outcome(call, [*VIEW, 1], [data] + more).number == 23
    assert met == set(sum(PORE_FAULTS, ()))


def one_payload():
    """Of all short payloads those are right that a pattern of the bits describes; no
    two stand for the same distances, and each is written from its own."""
    for e in range(2, 9):
        zero, ones = "0{%d}" % e, "1{%d}" % e
        step = "(?!%s)(?!%s)[01]{%d}" % (zero, ones, e)
        bodies = [bytes([byte]) for byte in range(256)]
        bodies += [bytes([first, byte]) for first in (0x00, 0x0B, 0x1F)
                   for byte in range(256)]
        line = "(%s((%s)*%s)*)" % (zero, ones, step)
        for lines in range(1, 5):
            pattern = re.compile("%s{%d}0{0,7}" % (line, lines))
            matching, seen = 0, set()
            for body in bodies:
                bits = "".join(format(byte, "08b") for byte in body)
                payload = b"\0\7" + bytes([e]) + body
                is_right = fault_given(26, from_payload, payload, lines) == ""
                assert is_right == bool(pattern.fullmatch(bits)), (e, lines, bits)
                if is_right:
                    pores = from_payload(payload, lines)
                    assert to_payload(pores) == payload
                    matching += 1
                    seen.add(to_numbers(pores))
            assert len(seen) == matching


def at_the_limit():
    """At e = 8 distances from 8,309,103 on have 32,714 elements, so that the record has
    32,768 bytes; at e = 2 those from 261,717 on have 130,859. One element more: 19."""
    data = record_of(1, b"")
    assert len(data) == 50
    for e, distance, further in ((8, 8309103, 253), (2, 261717, 1)):
        for more, number in ((0, 0), (further, 0), (further + 1, 19)):
            numbers = bytes_of([200, e, 1, distance + more])
            new = outcome("set_pores", SEGMENT, [data, numbers])
            assert (new.number, new.length) == (number, 0 if number else 32768)
            if number == 0:
                assert outcome("pores", SEGMENT, [new.written]).written == numbers
                assert lent(new, 32767).number == 20
        for distances in ([LARGEST_NUMBER], [LARGEST_NUMBER] * 2, [LARGEST_NUMBER] * 8):
            numbers = [200, e, len(distances)] + distances
            assert outcome("set_pores", SEGMENT, [data, bytes_of(numbers)]).number == 19
            assert outcome("set_pores", SEGMENT,
                           [data, bytes_of(numbers + [0])]).number == 26
    assert payload_size(Pores(0, 2, [[LARGEST_NUMBER]])) == 3 + (1 << 29) + 1


def pores_of_lines():
    """All of them."""
    by_hand()
    broken()
    one_payload()
    at_the_limit()
