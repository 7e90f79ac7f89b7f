"""The card files of crates/vectors, from plain bytes, and what must be printed of them.

The objects stand as they are on a card, so that they rest on no code that writes them.
Annex B.4 is there as printed and mended; others show both sizes, every form of a
length, objects behind 90, and what is refused.
"""

from answers import outcome
from judge import judge

ENDING = ".card"
SIZES = (0, 1)
# The numbers that some card must be refused with, or accepted, at each size. 9 takes
# over 7,000 bytes, and 19 over 32,000.
NUMBERS = (0, 8, 10, 27)

# Annex B.4 as printed: its tag is 5F2E, its length is not in the shortest form, and
# there is no object 90.
B4 = ("5F2E 8139  0014 0023  0029 2904010101270A03043372108F061802DE106A020801006A080B03"
      "37216A080B03372132130D030721  0008 0401112221212110")
# The same, mended: the skeleton and the index are those of annex-b-mended.fsk.
B4_MENDED = ("7F2E 4C 90 4A  0014 0023  003A 290401010000000270A030433720000008F061802DE0"
             "000006A02080100000006A080B033720000006A080B0337200000032130D030720000000"
             "0008 0401112221212110")

# 90's value with one line: of the normal size, with the code -3; of the compact size,
# with the code +2, next to itself.
NORMAL = "0FFF 0001  000A 50200803 01 DBFC007FF0  0000"
COMPACT = "0100 00FF  0008 450A14 01 2880E140  0002 0180"
# 90's value without lines and without an index.
EMPTY = "0000 0000 0000 0000"


def compact_line(size):
    """A compact line of so many bytes, two codes in each above 7."""
    codes = size - 7
    return "450A14 %02X" % (2 * codes) + "1F" * codes + "880E14"


def compact_value(*sizes):
    """90's value with compact lines of so many bytes."""
    return ("0000 0000 %04X" % sum(sizes) + "".join(compact_line(size) for size in sizes)
            + "0000")


def card_texts():
    """The card files by name, in hexadecimal."""
    return {
        "annex-b4": B4, "annex-b4-mended": B4_MENDED,
        "card-normal": "7F2E 14 90 12" + NORMAL,
        "card-compact": "7F2E 14 90 12" + COMPACT,
        "card-empty": "7F2E 0A 90 08" + EMPTY,
        "card-index": "7F2E 0B 90 09  0005 0006 0000 0001 10",
        "card-127": "7F2E 7F 90 7D" + compact_value(117),
        "card-128": "7F2E 8183 90 8180" + compact_value(120),
        "card-255": "7F2E 81FF 90 81FC" + compact_value(134, 110),
        "card-256": "7F2E 820104 90 820100" + compact_value(134, 114),
        "card-behind": "7F2E 1A 90 12" + COMPACT + "94 04 01010180",
        "card-several": "7F2E 819D 90 08" + EMPTY + "91 00 7F 02 2E00 90 08" + EMPTY
                        + "A1 8180" + "5A" * 128,
        "card-81": "7F2E 15 90 8112" + COMPACT,
        "card-83": "7F2E 83000014 90 12" + COMPACT,
        "card-after": "7F2E 14 90 12" + COMPACT + "00",
        "card-over": "7F2E 15 90 13" + COMPACT + "00",
        "card-cut": "7F2E 15 90 12" + COMPACT + "91",
        "card-second": "7F2E 16 91 00 90 12" + COMPACT,
        "card-padding": "7F2E 14 90 12  0100 00FF  0008 450A14 01 2880E141  0002 0180",
        "card-zero-byte": "7F2E 15 90 13" + NORMAL.replace("000A", "000B")[:-6] + "00 0000",
        "card-w": "7F2E 14 90 12  0100 00FF  0008 450A14 01 2880E140  0002 1180",
        "card-leftover": "7F2E 0C 90 0A  0005 0006 0000 0002 1000"}


def card_samples():
    """The card files by name."""
    return {name: bytes.fromhex(text) for name, text in card_texts().items()}


def card_rows(data, listing):
    """What must be printed of a card file behind its name: at each size the refusal, or
    the listing of the record, and the object that writing its view gives."""
    rows = []
    for size in SIZES:
        rows.append("card %d" % size)
        read = outcome("card_read", [size], [data])
        if read.number != 0:
            rows += ["refused %d" % read.number, "place %d" % read.place]
            continue
        again = outcome("card_write", [size, 0, 0], [read.written]).written
        rows += listing(read.written, judge(read.written))
        rows.append("object %d bytes, %s" % (
            len(again), "the same" if again == data else "another"))
    return rows


def cards_without_sample(files):
    """The numbers that no card file gives at a size, as texts."""
    given = {(size, outcome("card_read", [size], [data]).number)
             for size in SIZES for data in files}
    return ["no card gives %d at size %d" % (number, size) for size in SIZES
            for number in NUMBERS if (size, number) not in given]
