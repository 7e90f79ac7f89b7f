"""The records of crates/vectors that show local quality, from plain bytes.

The payloads stand as they are in the record, so that they rest on no code that
writes them. Some are right, at every number of bits and of padding bits; some are
broken in each way that request [3] knows; and some views have more cells than the
payload, the lent room or a narrow counter.
"""

from build import build
from model import QUALITY_TYPE, Segment
from vectors_records import a_with_extended, sample_record, sample_view

# Nine cells with the values 1, 0, 1, 1, 0, 0, 1, 0, 1, at 1 to 8 bits.
NINE_CELLS = ("01 01 01  B2 80", "01 01 02  45 04 40", "01 01 03  20 90 08 20",
              "01 01 04  10 11 00 10 10", "01 01 05  08 02 10 00 20 08",
              "01 01 06  04 00 41 00 00 40 04",
              "01 01 07  02 00 08 10 00 00 80 02",
              "01 01 08  01 00 01 01 00 00 01 00 01")

# In a view of 5 by 3: under three bytes, cell width 0, cell height 0, bits 0, bits
# 9, a byte too few, a byte too many, and the bytes of other cells.
BROKEN = ("02 02", "00 02 03  29 CB 80", "02 00 03  29 CB 80", "02 02 00",
          "02 02 09  00 80 40 20 10 08 04", "02 02 03  29 CB", "02 02 03  29 CB 80 00",
          "03 02 03  29 CB 80")


def quality_view(name, width, height, texts):
    """A view without lines of this size; each text is a payload of local quality."""
    view = sample_view(name)
    view.width, view.height = width, height
    view.segments = [Segment(QUALITY_TYPE, bytes.fromhex(text)) for text in texts]
    return view


def one_view(width, height, *texts):
    return sample_record([quality_view("right index", width, height, texts)])


def none_record():
    """Three views without cells; the last has a byte too many."""
    return sample_record([quality_view("right index", 0, 256, ["01 FF 08"]),
                          quality_view("right middle", 256, 0, ["FF 01 01"]),
                          quality_view("right ring", 0, 0, ["01 01 01  00"])])


def mixed_record():
    """Two views in which local quality stands behind and between other types."""
    first = quality_view("left index", 5, 3, ["02 02 03  29 CB 80"] * 5)
    first.segments[0].type = 0x0001
    first.segments[2].type = 0x0103
    first.segments[3].payload += b"\0"
    second = quality_view("left middle", 16, 16, ["08 08 02  1B"] * 2)
    second.segments[0].type = 0x0300
    return sample_record([first, second])


def room_record():
    """Views of 253 and 254 cells of one bit, all ones: 256 and 257 bytes of values."""
    return sample_record([
        quality_view("right thumb", 253, 1, ["01 01 01" + "FF" * 31 + "F8"]),
        quality_view("left thumb", 254, 1, ["01 01 01" + "FF" * 31 + "FC"])])


def many_record():
    """Three bytes for 4,294,836,225 cells; for cells whose bits are 2 to the 32; for
    cells that are 2 to the 16; and one byte more for those of the first view."""
    return sample_record([
        quality_view("right thumb", 65535, 65535, ["01 01 08", "01 01 01  00"]),
        quality_view("right index", 32768, 16384, ["01 01 08"]),
        quality_view("right middle", 256, 256, ["01 01 01"])])


def quality_samples():
    """The samples of local quality, by name."""
    nine = one_view(9, 1, *NINE_CELLS, NINE_CELLS[0])
    return {
        "quality-cells": a_with_extended("0003 000F 404004 0123456789ABCDEF"),
        "quality-rounded": build(one_view(5, 3, "02 02 03  29 CB 80")),
        "quality-bits": build(nine),
        "quality-none": build(none_record()),
        "quality-broken": build(one_view(5, 3, *BROKEN)),
        "quality-padding": build(one_view(5, 3, "02 02 03  29 CB 81",
                                          "02 02 03  29 CB A0")),
        "quality-mixed": build(mixed_record()),
        "quality-room": build(room_record()),
        "quality-many": build(many_record())}
