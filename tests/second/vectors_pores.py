"""The records of crates/vectors that show pores, from plain bytes.

The payloads stand as they are in the record, so that they rest on no code that writes
them. Some are right, at every number of bits and of padding bits; some are broken in
each way that request [7] knows; some stand between local quality and other types; and
one record stands there before a removal and after it.
"""

from build import build
from model import PORES_TYPE, QUALITY_TYPE, Index, Segment
from vectors_records import a_with_extended, sample_line, sample_record, sample_view

# Three lines: with pores at 1, the longest step and one more; with none; with one at
# twice the longest step. At 2 to 8 bits; at last 7 bits without the third pore.
EVERY_E = ("00C8 02  1B 43 80", "00C8 03  07 72 07 C0", "00C8 04  01 EF 10 0F E0",
           "00C8 05  00 7D F0 80 1F F0", "00C8 06  00 1F BF 04 00 3F F8",
           "00C8 07  00 07 F7 F0 20 00 7F FC", "00C8 08  00 01 FE FF 01 00 00 FF FE",
           "00C8 07  00 07 F0 00 1F FF 00")

# In a view of two lines: under three bytes, e 1, e 9, a line too few, no zero element
# first, a line that ends in all ones, all ones at the end, a zero byte too many.
BROKEN = ("00C8", "00C8 01  00", "00C8 09  00 00 00", "00C8 04  01", "00C8 04  10 02",
          "00C8 04  01 F0 02", "00C8 04  01 0F", "00C8 04  01 02 00")

# In a view of two lines: a right payload with a zero element in the padding, a 1 behind
# that element, a 1 in less than an element, all ones before padding, a third line, and
# a right payload again, with two zero elements in the padding.
PADDING = ("00C8 03  04 20", "00C8 03  04 21", "00C8 05  00 41", "00C8 04  01 02 F0",
           "00C8 04  01 02 00 10", "00C8 02  00")

# In a view of three lines, before and after the removal of the second one: pores, local
# quality that is broken, pores twice.
BEFORE = ("00C8 04  01 0E F1 02", "00 01", "0001 02  0D 14",
          "FFFF 08  00 FF 01 00 00 07 FF 2E")
AFTER = ("00C8 04  01 02", "00 01", "0001 02  05", "FFFF 08  00 FF 01 00 07 FF 2E")


def pores_view(name, lines, texts, number=0):
    """A view with so many of A's lines; each text is a payload of pores."""
    view = sample_view(name, number)
    view.lines = [sample_line([2]) for _ in range(lines)]
    view.segments = [Segment(PORES_TYPE, bytes.fromhex(text)) for text in texts]
    return view


def one_view(lines, *texts):
    return sample_record([pores_view("right index", lines, texts)])


def none_record():
    """A view without lines, right and with a byte too many; then views with one to five
    lines of which none has pores, all with the same payload; five are too many."""
    views = [pores_view("unknown", 0, ["FFFF 02", "00C8 02  00"])]
    views += [pores_view("left thumb", lines, ["00C8 02  00"], lines - 1)
              for lines in range(1, 6)]
    return sample_record(views)


def mixed_record():
    """Local quality, pores and other types, and payloads that stand under another
    type. Local quality has one cell of 4 bits, pores are those of two lines."""
    view = pores_view("left middle", 2, ["00C8 04  01 02"] * 4 + ["FF FF 04  10"] * 2)
    for at, type_ in ((0, 0x0104), (2, 0x0400), (3, QUALITY_TYPE), (4, QUALITY_TYPE)):
        view.segments[at].type = type_
    view.width, view.height = 255, 1
    return sample_record([view])


def three_lines(lines, neighbours, texts):
    """Lines of which the second segment is of local quality, the others of pores."""
    view = pores_view("right ring", lines, texts)
    for line, code in zip(view.lines, (1, 3) if lines == 2 else (1, 2, 3)):
        line.codes = [code]
    view.index = Index(1, neighbours)
    view.segments[1].type = QUALITY_TYPE
    return sample_record([view])


def room_record():
    """A line with 253 pores and one with 254, all at distance 1: 256 and 257 numbers.
    """
    ones = "00C8 02  15" + "55" * 62
    return sample_record([pores_view("right thumb", 1, [ones + "50"]),
                          pores_view("left thumb", 1, [ones + "54"])])


def pores_samples():
    """The samples of pores, by name."""
    return {
        "pores-lines": a_with_extended("0004 000B 00C804 01E20F10"),
        "pores-bits": build(one_view(3, *EVERY_E)),
        "pores-none": build(none_record()),
        "pores-broken": build(one_view(2, *BROKEN)),
        "pores-padding": build(one_view(2, *PADDING)),
        "pores-mixed": build(mixed_record()),
        "pores-before": build(three_lines(3, [[], [0], [1]], BEFORE)),
        "pores-after": build(three_lines(2, [[], []], AFTER)),
        "pores-room": build(room_record())}
