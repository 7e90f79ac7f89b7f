"""Makes cards' objects, and records of a card's size: right ones, and damaged objects.

Each kind of damage touches one thing and leaves the rest right. What comes of it is not
assumed here; card.py decides.
"""

from bits import with_bit_turned
from build import parts_of
from card import SETS
from card_build import INNER_TAG, TEMPLATE_TAG, Wrapped, card_bytes, card_parts
from card_ways import TURNS
from damage import (broken_block, index_cut, index_leftover, index_width, skeleton_cut,
                    skeleton_last_bits, skeleton_zero_byte)
from make import add_view, random_record, random_style
from model import Line, Record

# The tags of table 6 behind 90, and some that it does not have.
TABLE_TAGS = (0x91, 0x92, 0x93, 0x94, 0x95, 0x96, 0x81, 0xA1, 0x82, 0xA2)
OTHER_TAGS = (0x90, 0x7F, 0x2E, 0x00, 0xFF, 0x80, 0x1F, 0x5F)
# What is no whole object, or has another form of length, at the template's end.
CUT_OBJECTS = ("91", "91 81", "91 82", "91 82 01", "91 01", "91 05 00", "91 80",
               "91 81 80", "91 82 01 00", "91 7F 00", "91 83 00 00 01 00", "91 81 01 00",
               "91 82 00 01 00", "91 FF", "7F 2E")
# The kinds of damage of a record that touch a view's skeleton or index alone.
BLOCK_KINDS = (skeleton_zero_byte, skeleton_cut, skeleton_last_bits, index_width,
               index_leftover, index_cut)


def card_record(size, device=0):
    """A record without views that has a size's widths, steps and N."""
    return Record(device, *SETS[size])


def card_view(rng, size):
    """A record of a size with one view of any kind; the view has no segments."""
    record = card_record(size)
    lines, codes = rng.choices(((0, 0), (2, 3), (6, 8), (30, 12)), (10, 40, 40, 10))[0]
    add_view(rng, record, 0, rng.randint(0, lines), rng.randint(0, codes),
             random_style(rng), 0.0)
    return record


def random_card_record(rng, size, segments=0.5):
    """A right record of a size, with one view or with several."""
    kind = rng.choices(("tiny", "small", "middle", "fingers", "views"),
                       (28, 48, 10, 13, 1))[0]
    return random_record(rng, kind, segments, card_record(size, rng.getrandbits(16)))


def shortest_line(record):
    """The bytes of a line without codes; at both sizes they are whole ones."""
    return (2 * (2 + record.b + 2 * record.c) + 8) // 8


def plain_line(place, count):
    """A line that its place tells, with so many codes of 4 bits, level turns too."""
    codes = [(3 * at + place) % 16 - 8 for at in range(count)]
    return Line(place % 4, place % 64, place % 256, 255 - place % 256, codes,
                (place + 1) % 4, 63, 7, 255)


def lines_of_bytes(record, size):
    """Lines that take just so many bytes: none, or enough for a line."""
    least, lines = shortest_line(record), []
    most = least + 127
    while size > 0:
        taken = size if size <= most else min(most, size - least)
        lines.append(plain_line(len(lines), 2 * (taken - least)))
        size -= taken
    return lines


def random_behind(rng):
    """Objects behind 90: mostly none, one or a few, some of them empty."""
    behind = []
    for _ in range(rng.choice((0, 0, 1, 1, 2, 3, 5))):
        tag = rng.choice(TABLE_TAGS + OTHER_TAGS + (rng.randrange(256),))
        length = rng.choice((0, 0, 1, 2, rng.randint(0, 40), rng.choice(TURNS)))
        behind.append(Wrapped(bytes([tag]), rng.randbytes(length)))
    return behind


def random_parts(rng, size):
    """The parts of a right object."""
    record = card_view(rng, size)
    parts = card_parts(record, record.views[0])
    parts.behind = random_behind(rng)
    return parts


def any_wrapped(rng, parts):
    """The template, object 90 or one behind it."""
    return rng.choice([parts.template, parts.inner] + parts.behind)


def other_tag(rng, parts):
    wrapped = rng.choice((parts.template, parts.inner))
    other = rng.choice((b"\x7f\x2e", b"\x90", b"\x5f\x2e", b"\x7f\x2f", b"\x7f", b"\x91",
                        b"\x30", b"\x10", b"\x2e\x7f", b"\xff\x2e"))
    wrapped.tag = b"\x7f\x60" if wrapped.tag == other else other


def other_form(rng, parts):
    """A form of the length that may not be, or not for so short a length."""
    form = rng.choice((0, 1, 1, 1, 2, 2, 3, 3, 4, 5, 126, 127))
    any_wrapped(rng, parts).form = form


def length_off(rng, parts):
    """A length that is too long or too short."""
    any_wrapped(rng, parts).off = rng.choice((-9, -2, -1, -1, 1, 1, 2, 9, 127, 128, 256,
                                              65535))


def block_length_off(rng, parts):
    """The length of the skeleton or of the index in 90's value."""
    name = rng.choice(("skeleton", "index"))
    true = len(getattr(parts, name))
    off = max(0, true + rng.choice((-4, -2, -1, 1, 2, 3, 4)))
    setattr(parts, name + "_length",
            rng.choice((off, off, off, rng.getrandbits(16), 65535, true ^ 256)))


def bytes_left_over(rng, parts):
    parts.left_over = rng.choice((b"\0", b"\0\0", rng.randbytes(rng.randint(1, 6))))


def bytes_after(rng, parts):
    parts.after = rng.choice((b"\0", b"\x90\0", rng.randbytes(rng.randint(1, 6))))


def behind_cut(rng, parts):
    """A tag without a length, a cut length, or a value that passes the template."""
    parts.rest = bytes.fromhex(rng.choice(CUT_OBJECTS))


def no_inner(rng, parts):
    """A template without object 90, in which there may be others, or nothing."""
    first = rng.choice((b"", Wrapped(b"\x91", b"\0\1").to_bytes(),
                        Wrapped(b"\xa1", card_bytes(parts)).to_bytes()))
    parts.inner.tag = first + b"\x91"


SHAPE_KINDS = (other_tag, other_form, length_off, other_form, block_length_off,
               bytes_left_over, length_off, bytes_after, behind_cut, no_inner)


def with_blocks_damaged(rng, size, kind):
    """An object whose skeleton or index is damaged as a record's can be."""
    record = card_view(rng, size)
    found, parts = card_parts(record, record.views[0]), parts_of(record)
    kind(rng, parts)
    found.skeleton, found.index = parts.views[0].skeleton, parts.views[0].index
    return found


def with_broken_index(rng, size):
    """An object whose index breaks a rule of clause 6.3.2."""
    record = card_view(rng, size)
    found = card_parts(record, record.views[0])
    found.index = broken_block(rng, record.views[0])
    return found


def damaged_parts(rng, size, kind):
    """The parts of an object damaged in one way; now and then there is a second one."""
    if kind is broken_block:
        parts = with_broken_index(rng, size)
    elif kind in BLOCK_KINDS:
        parts = with_blocks_damaged(rng, size, kind)
    else:
        parts = random_parts(rng, size)
        kind(rng, parts)
        return parts
    if rng.random() < 0.4:
        parts.behind = random_behind(rng)
    if rng.random() < 0.1:
        rng.choice(SHAPE_KINDS)(rng, parts)
    return parts


def disturbed(rng, data):
    """An object's bytes cut, or with bits turned, or noise behind the right tags."""
    kind = rng.randrange(4)
    if kind == 0:
        return data[:rng.randint(0, len(data) - 1)]
    if kind == 1:
        noise = rng.randbytes(rng.randint(0, 60))
        return Wrapped(TEMPLATE_TAG, Wrapped(INNER_TAG, noise).to_bytes()).to_bytes()
    for _ in range(rng.choice((1, 1, 2, 4))):
        data = with_bit_turned(data, rng.randrange(8 * len(data)))
    return data


KINDS = SHAPE_KINDS + (broken_block,) + BLOCK_KINDS + (broken_block, disturbed)


def damaged_card(rng, size, kind):
    """The bytes of an object damaged in one way."""
    if kind is disturbed:
        return disturbed(rng, card_bytes(random_parts(rng, size)))
    return card_bytes(damaged_parts(rng, size, kind))
