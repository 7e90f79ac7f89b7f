"""The shapes of cards' objects at the edges, listed one by one and not left to chance.

At both sizes every part of the shape is cut, too long, too short or in another form,
lengths stand around those where their form changes, and a small object is cut at every
byte and turned at every bit. Each edge is a size number and an object's bytes. Those of
edges_card_blocks.py are listed here with them.
"""

from functools import partial
from itertools import product

from bits import with_bit_turned
from card import SETS
from card_build import (INNER_TAG, MOST_LENGTH, TEMPLATE_TAG, Wrapped, card_bytes,
                        inside_bytes, value_bytes)
from card_ways import TURNS
from edges_card_blocks import (broken_indexes, indexes, limits, line_edges, of_blocks,
                               over_no_lines, skeletons, small_parts, with_parts)
from make_card import CUT_OBJECTS, OTHER_TAGS, TABLE_TAGS

SIZES = range(len(SETS))
FORMS = (0, 1, 2, 3, 4, 5, 126, 127)


def two_behind():
    return [Wrapped(b"\x91", b"\1\2"), Wrapped(b"\xa2")]


def wrapped_otherwise(size, make, part, **changes):
    """An edge: an object of which the template, 90 or the first behind it is wrapped
    otherwise."""
    parts = make(size)
    wrapped = parts.behind[0] if part == "behind" else getattr(parts, part)
    for name, value in changes.items():
        setattr(wrapped, name, value)
    return size, card_bytes(parts)


def wrapped_value(value):
    """The object that holds a value of 90, whatever it is."""
    return Wrapped(TEMPLATE_TAG, Wrapped(INNER_TAG, value).to_bytes()).to_bytes()


def forms(size, numbers, lengths, chosen=FORMS):
    """Every part in every form, with skeletons of so many bytes and objects of such
    lengths behind."""
    found = []
    for number, form in product(numbers, chosen):
        found += [wrapped_otherwise(size, partial(of_blocks, number=number), part,
                                    form=form) for part in ("template", "inner")]
    for length, form in product(lengths, chosen):
        behind = Wrapped(b"\x94", bytes(length), form=form)
        found.append(with_parts(size, small_parts, behind=[behind]))
    return found


def in_vain(size):
    """Each part with the longest length for which a form is in vain: 127 and 255 bytes
    of the template, of 90 and behind it."""
    return forms(size, (117, 119, 244, 247), (127, 255), (1, 2))


def above_82(size):
    """Right objects but for a length above 65,535, whose shortest form is 83: of the
    template, of 90 too, and of an object behind it too."""
    long = Wrapped(b"\x96", bytes(MOST_LENGTH + 1), form=3)
    two = [Wrapped(b"\x96", bytes(MOST_LENGTH // 2 + 1))] * 2
    template = Wrapped(TEMPLATE_TAG, form=3)
    return [with_parts(size, small_parts, behind=two, template=template),
            with_parts(size, small_parts, behind=[long], template=template),
            with_parts(size, partial(of_blocks, number=MOST_LENGTH), template=template,
                       inner=Wrapped(INNER_TAG, form=3))]


def lengths_off(size):
    """The length of every part too short and too long, by little and by much."""
    return [wrapped_otherwise(size, partial(small_parts, behind=two_behind()), part,
                              off=off)
            for part in ("template", "inner", "behind")
            for off in (-65535, -3, -2, -1, 1, 2, 3, 127, 128, 255, 256, 65535)]


def tags(size):
    """Other tags for the template and for 90, and any tag behind it."""
    found = [wrapped_otherwise(size, small_parts, "template", tag=bytes.fromhex(tag))
             for tag in ("7E2E", "7F2F", "7F2C", "5F2E", "2E7F", "7F60", "7F", "2E", "90",
                         "7F2E7F2E", "")]
    found += [wrapped_otherwise(size, small_parts, "inner", tag=bytes.fromhex(tag))
              for tag in ("91", "10", "80", "B0", "00", "FF", "7F2E", "9090", "")]
    return found + [with_parts(size, small_parts, behind=[Wrapped(bytes([tag]), b"\x90\0")])
                    for tag in TABLE_TAGS + OTHER_TAGS]


def right_behind(size):
    """Objects behind 90: none, one and several, empty and long, with any tag."""
    rows = [[], [Wrapped(b"\x91")], [Wrapped(b"\x90")], [Wrapped(b"\x7f")],
            [Wrapped(b"\0")] * 3, two_behind(), [Wrapped(b"\x7f", bytes(0x2E))],
            [Wrapped(b"\x90", b"\0\1\0\1\0\0\0\0")] * 2,
            [Wrapped(bytes([tag]), bytes([tag])) for tag in TABLE_TAGS],
            [Wrapped(b"\x92")] * 300]
    rows += [[Wrapped(b"\x93", bytes(length))] for length in (126, *TURNS, 129, 254, 257)]
    rows += [[Wrapped(b"\x91"), Wrapped(b"\x93", bytes(length)), Wrapped(b"\x95", b"\7")]
             for length in TURNS]
    return [with_parts(size, small_parts, behind=row) for row in rows]


def cut_behind(size):
    """What is no whole object behind 90, alone and behind others."""
    return [with_parts(size, small_parts, behind=row, rest=bytes.fromhex(text))
            for row in ([], two_behind()) for text in CUT_OBJECTS]


def values(size):
    """90's value with bytes left over, with other stated lengths of its blocks, and cut
    at every byte; and bytes after the template."""
    found, parts = [], small_parts(size)
    for behind in ([], two_behind()):
        for more in (b"\0", b"\0\0", b"\0\0\0\0", b"\xff"):
            found += [with_parts(size, small_parts, behind=behind, left_over=more),
                      with_parts(size, small_parts, behind=behind, after=more)]
        for name, block in (("skeleton", parts.skeleton), ("index", parts.index)):
            true = len(block)
            found += [with_parts(size, small_parts, behind=behind,
                                 **{name + "_length": stated})
                      for stated in (0, 1, true - 1, true + 1, true + 2, true + 256, 65535)]
    value = value_bytes(parts)
    found += [(size, wrapped_value(value[:length])) for length in range(len(value))]
    return found + [(size, wrapped_value(bytes(length))) for length in range(12)]


def around_turns(size):
    """Right objects whose lengths are around each change of form: of the template, of
    90, and of both."""
    return [with_parts(size, partial(of_blocks, number=number))
            for number in (*range(115, 124), *range(242, 252))]


def beginnings(size, parts, most):
    """The beginnings of an object, and those of its value in a template of its own."""
    data, value = card_bytes(parts), inside_bytes(parts)
    return ([(size, data[:length]) for length in range(most)]
            + [(size, Wrapped(TEMPLATE_TAG, value[:length]).to_bytes())
               for length in range(most)])


def cut_lengths(size):
    """Objects with lengths of one, two and three bytes that are cut in these."""
    return [edge for number in (9, 120, 300)
            for edge in beginnings(size, of_blocks(size, number), 8)]


def cuts(size):
    """Every beginning of a small object."""
    parts = small_parts(size, two_behind())
    return beginnings(size, parts, len(card_bytes(parts)))


def turned(size):
    """Every bit of a small object turned."""
    data = card_bytes(small_parts(size, two_behind()))
    return [(size, with_bit_turned(data, bit)) for bit in range(8 * len(data))]


def with_rooms(size):
    """The edges of which the room matters too."""
    return around_turns(size) + right_behind(size) + over_no_lines(size) + limits(size)


def card_edges():
    """All others, at both sizes; those that no shorter list may leave out come first."""
    first, others = [], []
    for size in SIZES:
        for kind in (tags, lengths_off, cut_behind, values, cut_lengths, skeletons,
                     broken_indexes, line_edges, in_vain, above_82):
            first += kind(size)
        first += forms(size, (9,), (1,))
        others += forms(size, (0, 100, 119, 120, 245, 247, 248), (0, *TURNS))
        others += cuts(size) + turned(size) + indexes(size)
    return first, others
