"""The sweat pores of a view, which segments of type 0x0004 hold: request [7].

A payload has the resolution in two bytes and the bits of an element, e, in one.
Then come elements of e bits: for each line of the view a zero element and those of
its distances. Zero bits fill the last byte up, also where they would make whole
elements. A host passes the same as numbers of 32 bits each: resolution, e, and for
each line a count and that many distances. Both are judged here (26), and both are
written from the structure. A distance can stand for two thousand million elements, so
bytes are counted (19) before any is written.
"""

import struct
from dataclasses import dataclass, replace

from model import LARGEST_RECORD, PORE_FAULTS, PORES_TYPE, Refusal, refusing

FIRST_BYTES = 3
NUMBER_BYTES = 4
LEAST_BITS, MOST_BITS = 2, 8
MOST_RESOLUTION = 65535
LARGEST_NUMBER = (1 << 32) - 1
PAYLOAD_FAULTS = PORE_FAULTS[0] + PORE_FAULTS[1]
NUMBER_FAULTS = PORE_FAULTS[0] + PORE_FAULTS[2]

# 26 where a rule is broken.
must = refusing(26)


@dataclass
class Pores:
    """The resolution, the bits of an element, and each line's distances."""

    resolution: int
    e: int
    lines: list


def longest_step(e):
    """The longest distance of one element, which is what all ones pass too."""
    return (1 << e) - 2


def all_ones(e):
    return (1 << e) - 1


# ---- a distance and its elements ----

def passes_of(distance, e):
    """How many elements of all ones a distance has before its last element."""
    return (distance - 1) // longest_step(e)


def last_of(distance, e):
    """A distance's last element, from 1 up to the longest step."""
    return distance - passes_of(distance, e) * longest_step(e)


def distances_of(series, e):
    """The distances that a line's elements sum up to; the last is not all ones."""
    found, passed = [], 0
    for element in series:
        if element == all_ones(e):
            passed += longest_step(e)
        else:
            found.append(passed + element)
            passed = 0
    return found


# ---- payloads ----

def judge_e(e):
    """26 unless an element can have so many bits."""
    must(e >= LEAST_BITS, "e under 2")
    must(e <= MOST_BITS, "e above 8")


def bits_of(data):
    """All bits of some bytes as a text of 0 and 1."""
    return "".join(format(byte, "08b") for byte in data)


def from_payload(payload, count):
    """The Pores that the payload of a view with so many lines holds; 26 otherwise.

    The zero elements part the lines. That behind the last line, or else what is under
    an element, starts the rest.
    """
    must(len(payload) >= FIRST_BYTES, "under 3 bytes")
    e = payload[2]
    judge_e(e)
    bits = bits_of(payload[FIRST_BYTES:])
    elements = [int(bits[at:at + e], 2) for at in range(0, len(bits) - e + 1, e)]
    zeros = [at for at, element in enumerate(elements) if element == 0]
    if count > 0 and elements:
        must(elements[0] == 0, "first element not zero")
    must(len(zeros) >= count, "too few lines")
    ends = (zeros + [len(elements)])[:count + 1]
    rest = bits[ends[-1] * e:] if count > 0 else bits
    lines = []
    for line in range(count):
        series = elements[ends[line] + 1:ends[line + 1]]
        judge_end(series, e, line == count - 1, rest)
        lines.append(distances_of(series, e))
    judge_rest(rest, e)
    return Pores(payload[0] << 8 | payload[1], e, lines)


def judge_end(series, e, is_last, rest):
    """26 where the elements of a line end in all ones, whatever stands behind it."""
    if is_last:
        fault = "all ones before padding" if rest else "all ones at the end"
    else:
        fault = "all ones before a line"
    must(series[-1:] != [all_ones(e)], fault)


def judge_rest(rest, e):
    """26 unless the bits behind the last line are under eight, and all zero."""
    if len(rest) >= 8:
        must("1" in rest, "8 zero bits over")
        must(False, "8 bits over, 1 among them")
    fault = "1 in under e bits" if len(rest) < e else "1 behind a zero element"
    must("1" not in rest, fault)


def elements_in(pores):
    """How many elements all lines have, the zero element of each too."""
    return sum(1 + len(line) + sum(passes_of(distance, pores.e) for distance in line)
               for line in pores.lines)


def payload_size(pores):
    """The bytes that to_payload gives, counted and not made."""
    return FIRST_BYTES + (elements_in(pores) * pores.e + 7) // 8


def to_payload(pores):
    """The payload: resolution, e, the lines, zero bits."""
    e, pieces = pores.e, []
    for line in pores.lines:
        pieces.append("0" * e)
        for distance in line:
            pieces.append("1" * (e * passes_of(distance, e)))
            pieces.append(format(last_of(distance, e), "0%db" % e))
    bits = "".join(pieces)
    size = payload_size(pores) - FIRST_BYTES
    bits += "0" * (8 * size - len(bits))
    head = pores.resolution.to_bytes(2, "big") + bytes([e])
    return head + int("0" + bits, 2).to_bytes(size, "big")


# ---- numbers ----

def bytes_of(numbers):
    """Numbers of 32 bits as a host passes them."""
    return struct.pack(">%dI" % len(numbers), *numbers)


def numbers_of(data):
    """The numbers that bytes are; 26 if the last one is cut."""
    must(len(data) % NUMBER_BYTES == 0, "cut number")
    return struct.unpack(">%dI" % (len(data) // NUMBER_BYTES), data)


def from_numbers(data, count):
    """The Pores that numbers tell of a view with so many lines; 26 otherwise."""
    numbers = numbers_of(data)
    must(len(numbers) >= 2, "under 2 numbers")
    resolution, e, *rest = numbers
    must(resolution <= MOST_RESOLUTION, "resolution above 65535")
    judge_e(e)
    lines, at = [], 0
    for _ in range(count):
        must(at < len(rest), "too few lines")
        after = at + 1 + rest[at]
        must(after <= len(rest), "count too high")
        lines.append(rest[at + 1:after])
        must(0 not in lines[-1], "distance 0")
        at = after
    must(at == len(rest), "numbers over")
    return Pores(resolution, e, lines)


def to_numbers(pores):
    """The numbers: resolution, e, and each line's count and distances."""
    numbers = [pores.resolution, pores.e]
    for line in pores.lines:
        numbers += [len(line)] + line
    return bytes_of(numbers)


# ---- segments ----

def read(view, segment):
    """The Pores of a view's segment: 26 for another type or a broken payload."""
    must(segment.type == PORES_TYPE, "type")
    return from_payload(segment.payload, len(view.lines))


def rewrite(view, place, data):
    """The view with one segment's payload made from numbers; its old payload is not
    judged: 26 for another type or broken numbers, 19 where it is longer than a record.
    """
    segment = view.segments[place]
    must(segment.type == PORES_TYPE, "type")
    pores = from_numbers(data, len(view.lines))
    if payload_size(pores) > LARGEST_RECORD:
        raise Refusal(19)
    segments = list(view.segments)
    segments[place] = replace(segment, payload=to_payload(pores))
    return replace(view, segments=segments)


def is_at_fault(view, segment):
    """Whether a segment has pores that cannot be read."""
    if segment.type != PORES_TYPE:
        return False
    try:
        read(view, segment)
    except Refusal:
        return True
    return False


def left_by_removal(view, removed):
    """A view's segments without the pores of the lines removed: 26 where some pores
    cannot be read. The other segments stay as they are."""
    segments = []
    for segment in view.segments:
        if segment.type == PORES_TYPE:
            pores = read(view, segment)
            lines = [distances for line, distances in enumerate(pores.lines)
                     if line not in removed]
            segment = replace(segment, payload=to_payload(replace(pores, lines=lines)))
        segments.append(segment)
    return segments
