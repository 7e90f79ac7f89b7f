"""A record for every fault that has a place, with the place worked out by hand.

All but 9 come of a record of 85 bytes; from 6 on the fault is in its second
view, so that a place has to count the first one. The byte or bit where each
part of it starts stands beside its making, and every place follows from these.
The same faults with b = 4 stand behind them.
"""

from functools import lru_cache

from bits import with_bit_turned
from build import parts_of, put_together
from model import LARGEST_RECORD, MOST_LINES, Index, Line, Record, Segment, View

SECOND_VIEW = 46
SKELETON = 56
INDEX = 74
EXTENDED = 79
SIZE = 85
LOW_B = 4

# Index blocks over two lines that break a rule, from w on: the bit of the block that is
# at fault, the fault, and the bytes.
BROKEN_INDEXES = (
    (0, "w", "00"), (0, "w", "11 08 10"), (0, "w", "FF 08 10"),
    (8, "count past the end", "03"), (13, "count past the end", "05 00"),
    (14, "difference past the end", "03 08"), (23, "difference past the end", "05 00 80"),
    (17, "later difference of 0", "03 08 00"), (14, "sum above the line", "03 05 00"),
    (17, "sum above the line", "03 08 20"), (20, "1 of up to 7 bits", "03 08 18"),
    (22, "1 of up to 7 bits", "03 08 13"), (21, "1 before the eighth bit", "03 08 14 00"),
    (26, "1 before the eighth bit", "03 08 10 3F"),
    (27, "1 at the eighth bit", "03 08 10 10"),
    (29, "1 behind the eighth bit", "03 08 10 04"),
    (55, "1 behind the eighth bit", "03 08 10 00 00 00 01"),
    (27, "eighth bit", "03 08 10 00"), (27, "eighth bit", "03 08 10 00 00"))


def plain_line(codes, b=8):
    """60 bits, and 4 for each code; its count of codes has bits 26 to 33. At another b
    it starts and ends at the same parts of the turn."""
    return Line(1, 1 << b - 2, 10, 20, codes, 0, 3 << b - 2, 14, 20)


def base_parts():
    """The blocks of the record of 85 bytes.

    Bytes 24-33 first view's header, 34-41 its line, 42-43 no index, 44-45 no
    segments, 46-55 second view's header, 56-71 its lines at bits 448 and 508
    with padding from 572, 72-73 index length, 74 w, from bit 600 the count 0
    of line 0, at 603 the count 2 of line 1, at 606 and 609 its differences 0
    and 1, leftover from 612, 77-78 extended length, 79-84 its segment.
    """
    first = View(0, 2, 0, 80, 256, 256, [plain_line([2])])
    second = View(1, 2, 0, 80, 256, 256, [plain_line([]), plain_line([2])],
                  Index(3, [[], [1, 0]]), [Segment(0x0101, b"\7\7")])
    return parts_of(Record(0, 197, 8, 8, 4, 16, 64, 32, [first, second]))


def base_bytes():
    return put_together(base_parts())


def with_byte(at, value):
    """The record with one byte exchanged."""
    data = bytearray(base_bytes())
    data[at] = value
    return bytes(data)


def cut_to(size):
    """The record's first bytes; their number is the stated length."""
    data = base_bytes()[:size]
    return data[0:8] + size.to_bytes(4, "big") + data[12:]


def with_block(name, block):
    """The record with a block of its second view exchanged, all lengths right."""
    parts = base_parts()
    setattr(parts.views[1], name, block)
    return put_together(parts)


def with_skeleton(change):
    return with_block("skeleton", change(base_parts().views[1].skeleton))


def bytes_after(after):
    parts = base_parts()
    parts.after = after
    return put_together(parts)


def too_many_lines(c, after, b=8):
    """1,024 lines from byte 34 on, and bytes. A line has 60 bits at c = 8 and 92 at 16;
    at b = 4 it has 84 at c = 16."""
    view = View(0, 2, 0, 80, 256, 256, [plain_line([], b)] * MOST_LINES)
    parts = parts_of(Record(0, 197, c, b, 4, 16, 64, 32, [view]))
    parts.views[0].skeleton += after
    return put_together(parts)


def header_faults():
    """Numbers 2 to 5: the field's own place, whichever of its bytes is wrong."""
    found = [(2, 0, "identifier", with_byte(at, 0x20)) for at in range(4)]
    found += [(3, 32, "version", with_byte(at, 0x20)) for at in range(4, 8)]
    found += [(4, 64, "record length", with_byte(at, 1)) for at in range(8, 12)]
    for at, fault, values in (
            (14, "views", (0,)), (15, "points", (0,)), (16, "c", (0, 17, 255)),
            (17, "b", (0, 3, 9, 255)), (18, "k", (0, 1, 9, 255)),
            (19, "straight step", (0,)), (21, "N", (0,)), (22, "reserved", (1, 128))):
        found += [(5, 8 * at, fault, with_byte(at, value)) for value in values]
    return found + [(5, 176, "reserved", with_byte(23, value)) for value in (1, 128)]


def end_faults():
    """Number 6: the record ends at or inside what is to be found whole."""
    return [(6, 8 * start, fault, cut_to(size)) for start, fault, sizes in (
        (SECOND_VIEW, "view header", (46, 47, 55)),
        (SKELETON, "skeleton block", (56, 57, 71)), (72, "index length", (72, 73)),
        (INDEX, "index block", (74, 75, 76)), (77, "extended length", (77, 78)),
        (EXTENDED, "extended block", (79, 80, 84))) for size in sizes]


def view_faults():
    """Numbers 7 to 9."""
    found = [(7, 8 * (SECOND_VIEW + at), fault, with_byte(SECOND_VIEW + at, value))
             for at, fault, values in (
                 (0, "view number", (0, 2, 255)), (2, "impression", (4, 7, 10, 255)),
                 (3, "quality", (101, 255))) for value in values]
    for position in (11, 255):
        data = bytearray(with_byte(SECOND_VIEW + 1, position))
        data[SECOND_VIEW] = 0
        found.append((7, 376, "finger position", bytes(data)))
    cuts = [("line up to its count", 448, (1, 4)),
            ("line behind its count", 448, (5, 7)),
            ("line up to its count", 508, (9, 11)),
            ("line behind its count", 508, (12, 15))]
    found += [(8, place, fault, with_skeleton(lambda block, size=size: block[:size]))
              for fault, place, sizes in cuts for size in sizes]
    for zeros in (1, 3):
        found.append((8, 572, "line up to its count",
                      with_skeleton(lambda block, zeros=zeros: block + bytes(zeros))))
    found += [(8, bit, "padding", with_bit_turned(base_bytes(), bit))
              for bit in (572, 573, 575)]
    found.append((8, 573, "padding", with_byte(71, base_bytes()[71] | 0x05)))
    return found + [(9, place, "bits left over", too_many_lines(c, after))
                    for c, place in ((8, 61712), (16, 94480))
                    for after in (b"\0", b"\xff", bytes(8))]


def index_faults():
    """Number 10: each of BROKEN_INDEXES in the second view."""
    return [(10, 8 * INDEX + bit, fault, with_block("index", bytes.fromhex(block)))
            for bit, fault, block in BROKEN_INDEXES]


def segment_faults():
    """Numbers 11 and 12; the second segment's length field is at bit 696."""
    one, two = "0101 0006 0707", "0101 0006 0707 0202"
    blocks = [(648, "length under 4", "0101 0003 0707"), (648, "length under 4", "0101 0000"),
              (696, "length under 4", two + "0001"),
              (648, "length past the block", "0101 0007 0707"),
              (648, "length past the block", "0101 FFFF 0707"),
              (696, "length past the block", two + "0005"),
              (632, "bytes over", "01"), (680, "bytes over", one + "00"),
              (680, "bytes over", one + "0000"), (680, "bytes over", one + "000004")]
    found = [(11, place, fault, with_block("extended", bytes.fromhex(block)))
             for place, fault, block in blocks]
    return found + [(12, 8 * SIZE, "bytes after the last view", bytes_after(after))
                    for after in (b"\0", b"\xff", bytes(10))]


def far_off(number, place, fault, data):
    """The same fault far behind: a segment of the first view fills 32,768 bytes."""
    more = LARGEST_RECORD - len(data)
    length = more.to_bytes(2, "big")
    data = (data[:8] + LARGEST_RECORD.to_bytes(4, "big") + data[12:44] + length
            + b"\1\1" + length + bytes(more - 4) + data[SECOND_VIEW:])
    return number, place + 8 * more, fault, data


@lru_cache(maxsize=None)
def all_faults():
    """Number, place, fault and record; each fault of the second view far off too. They
    are made once."""
    near = (header_faults() + end_faults() + view_faults() + index_faults()
            + segment_faults())
    one_each = {entry[2]: entry for entry in near
                if entry[1] >= 8 * SECOND_VIEW and entry[0] != 9}
    return near + [far_off(*entry) for entry in one_each.values()]


def with_low_b(data):
    """The bytes with b = 4, and c = 10 for 8: a line then has the bits that it has with 8
    and 8, so that all else of the record stays, and every place."""
    c = 10 if data[16] == 8 else data[16]
    return data[:16] + bytes([c, LOW_B]) + data[18:]


def low_twins():
    """What low_faults come of: right records with b = 4, of 85 bytes, of 32,768 bytes,
    and with 1,024 lines."""
    near = with_low_b(base_bytes())
    return [near, far_off(0, 0, "", near)[3], with_low_b(too_many_lines(8, b"")),
            too_many_lines(16, b"", LOW_B)]


@lru_cache(maxsize=None)
def low_faults():
    """The same with b = 4, but those of b itself; the lines at c = 16 are made anew."""
    found = [(number, place, fault, with_low_b(data))
             for number, place, fault, data in all_faults()
             if fault != "b" and data[16] != 16]
    return found + [(9, 86288, "bits left over", too_many_lines(16, after, LOW_B))
                    for after in (b"\0", b"\xff", bytes(8))]
