"""The card's object of request [9]: template 7F2E, and object 90 first in it.

Reading judges the whole shape (27) before the blocks (9, 8, 10). The blocks are those
of a record at the widths of the size, clauses 8.1 and 8.2, and their places count from
the object's first bit. What is read is a record of one view, in which all that the card
lacks is zero. Writing judges the record's bytes 15 to 21 (28).
"""

from dataclasses import dataclass

from bits import number_at
from card_build import INNER_TAG, TEMPLATE_TAG, card_bytes, card_parts
from judge import judge_index, judge_skeleton
from model import FAR_SIZES, SET_FIELDS, Record, Refusal, View, refusing

# Of each size, normal and compact, a record's bytes 15 to 21: points per cm, c, b, k,
# straight step, 256 times perpendicular over straight step, N.
SETS = ((200, 11, 8, 4, 24, 60, 32), (100, 8, 6, 4, 16, 60, 32))

# 27 where something has another shape.
must = refusing(27)


@dataclass
class Shape:
    """Where the parts of an object are, by their first byte and the byte behind; of the
    objects behind 90 their tags and the lengths of their values."""

    template: tuple
    inner: tuple
    behind: list
    width: int = 0
    height: int = 0
    skeleton: tuple = ()
    index: tuple = ()


@dataclass
class Card:
    """An object that was read: its shape, and the record that it gives."""

    shape: Shape
    record: Record


def judge_size(size):
    """27 unless the size number is 0 or 1."""
    must(size < len(SETS),
         "size %d" % size if size in FAR_SIZES else "another size")


def length_at(data, at, end, part):
    """The length that a field from byte `at` on tells, and the byte behind it: 27 for
    another form than the shortest, or where it is cut."""
    must(at < end, part + ": length missing")
    first = data[at]
    if first < 0x80:
        return first, at + 1
    must(first > 0x80, part + ": form 80")
    must(first <= 0x82, part + ": form above 82")
    behind = at + 1 + (first & 0x7F)
    must(behind <= end, part + ": length cut")
    length = number_at(data, 8 * (at + 1), 8 * (first & 0x7F))
    most_in_vain = 127 if first == 0x81 else 255
    must(length != most_in_vain, "%s: %02X for %d" % (part, first, length))
    must(length > most_in_vain, "%s: %02X in vain" % (part, first))
    return length, behind


def value_at(data, at, end, part):
    """Where a value lies whose length stands at byte `at`: 27 if it passes the end."""
    length, start = length_at(data, at, end, part)
    must(length <= end - start, part + ": past the end")
    return start, start + length


def judge_behind(data, at, end):
    """The objects behind 90, one tag byte each, any tag: they fill the template."""
    found = []
    while at < end:
        tag = data[at]
        start, at = value_at(data, at + 1, end, "behind")
        found.append((tag, at - start))
    return found


def judge_template(data):
    """The template's tag and length, and what is in it: 90, then any objects."""
    must(len(data) >= len(TEMPLATE_TAG), "template: tag cut")
    must(data[:2] == TEMPLATE_TAG, "template: tag")
    start, end = value_at(data, 2, len(data), "template")
    must(end == len(data), "bytes after it")
    must(start < end, "90: missing")
    must(data[start:start + 1] == INNER_TAG, "90: tag")
    inner = value_at(data, start + 1, end, "90")
    return Shape((start, end), inner, judge_behind(data, inner[1], end))


def number_in(data, at, end, what):
    """The 16-bit number at byte `at` of 90's value, and the byte behind it."""
    must(at + 2 <= end, what + " cut")
    return number_at(data, 8 * at, 16), at + 2


def block_in(data, at, end, what):
    """Where a block lies whose length stands at byte `at` of 90's value."""
    length, start = number_in(data, at, end, what + " length")
    must(start + length <= end, what + " past the end")
    return start, start + length


def judge_value(data, shape):
    """The fields of 90's value, which they fill."""
    at, end = shape.inner
    shape.width, at = number_in(data, at, end, "width")
    shape.height, at = number_in(data, at, end, "height")
    shape.skeleton = block_in(data, at, end, "skeleton")
    shape.index = block_in(data, shape.skeleton[1], end, "index")
    must(shape.index[1] == end, "bytes left over")


def read(size, data):
    """The Card that an object is: 27; then 9 and 8 on its skeleton, 10 on its index."""
    judge_size(size)
    shape = judge_template(data)
    judge_value(data, shape)
    record = Record(0, *SETS[size])
    lines = judge_skeleton(data, *shape.skeleton, record)
    index = None
    if shape.index[0] < shape.index[1]:
        index = judge_index(data, *shape.index, len(lines))
    record.views.append(View(0, 0, 0, 0, shape.width, shape.height, lines, index))
    return Card(shape, record)


def set_of(record):
    """A record's bytes 15 to 21."""
    return (record.points, record.c, record.b, record.k, record.straight,
            record.perpendicular, record.half_turn)


def judge_set(size, record):
    """28 unless the record's bytes 15 to 21 are the size's."""
    found, wanted = set_of(record), SETS[size]
    wrong = [name for name, is_, should in zip(SET_FIELDS, found, wanted)
             if is_ != should]
    if found == SETS[1 - size]:
        raise Refusal(28, 0, "the other size's")
    if wrong:
        raise Refusal(28, 0, wrong[0] if len(wrong) == 1 else "several")


def write(size, record, view):
    """The object of a record's view: 28. No result is too long (19): a record has 38
    bytes and the two blocks, the object at most 17 bytes and the two blocks."""
    judge_set(size, record)
    return card_bytes(card_parts(record, view))
