"""The records of crates/vectors that are made here, from plain values.

Some stand at document 01's limits, and beside them those just beyond. Some show
how request [2] rounds a first heading. The small refused ones are sample A with
one change each: together with the limits they have every number from 1 to 12.
Those that show local quality stand in vectors_quality.py, those that show pores in
vectors_pores.py, and those that show names of views in vectors_names.py.
"""

from build import build, parts_of, put_together
from model import LARGEST_RECORD, Index, Line, Record, Segment, View

FIVE = ("thumb", "index", "middle", "ring", "little")
FINGERS = (("unknown",) + tuple("right " + name for name in FIVE)
           + tuple("left " + name for name in FIVE))


def finger(name):
    """A finger's position by its name."""
    return FINGERS.index(name)


def sample_record(views, c=8, k=4, b=8, half_turn=32):
    """A record with sample A's header, but for the widths and N that are given."""
    return Record(0, 197, c, b, k, 16, 64, half_turn, views)


def sample_view(name, number=0, quality=80):
    """An empty view with the rest of its header as in sample A."""
    return View(number, finger(name), 0, quality, 256, 256)


def sample_line(codes, direction=64, end_direction=192):
    """Sample A's line with other codes, and other directions."""
    return Line(1, direction, 10, 20, codes, 0, end_direction, 14, 20)


def long_line(place, count):
    """`count` codes of 2 bits that rise over a full turn; -2 turns the level."""
    cycle = (1, 1, 0, -2, -1)
    return sample_line([cycle[(place + at) % 5] for at in range(count)])


def payload(size):
    """Bytes that are not all alike."""
    return bytes((7 * at + 1) % 256 for at in range(size))


def quality_record(quality):
    """Five empty views; the last, a finger's second, has the quality.

    The fourth has an index all the same: over no lines it is the byte w.
    """
    views = [sample_view("right thumb", 0, 0), sample_view("left thumb"),
             sample_view("right little"), sample_view("unknown"),
             sample_view("right thumb", 1, quality)]
    views[3].index = Index(16, [])
    return sample_record(views)


def lines_record(count):
    """One view with so many short lines; every second one has no codes."""
    view = sample_view("left little")
    for place in range(count):
        codes = [2] if place % 2 == 0 else []
        view.lines.append(sample_line(codes, 16 * place % 256))
    return sample_record([view])


def coordinates_record(c):
    """One view with two lines whose coordinates need 16 bits."""
    view = sample_view("right middle")
    view.lines = [Line(1, 64, 65535, 32768, [2], 0, 192, 32769, 65534),
                  Line(2, 255, 0, 65535, [-1, 7], 3, 0, 40000, 1)]
    return sample_record([view], c=c)


def long_record(size):
    """A record of `size` bytes: 165 lines, and 11 segments of which 8 are shown.

    At 32,768 bytes its sheet fills the room it is lent, 65,536 bytes, to the
    last; the last segment's payload then has 1,437 bytes. Types have a high
    byte above 0, as later requests give some low ones a meaning.
    """
    view = sample_view("left index")
    view.lines = [long_line(place, 255) for place in range(164)]
    view.lines.append(long_line(164, 226))
    for place in range(10):
        view.segments.append(Segment(0x0101 + place, payload(1500 + 100 * place)))
    view.segments.append(Segment(0xFFFF, payload(1437 + size - LARGEST_RECORD)))
    return sample_record([view], k=2)


def segments_record():
    """Two views with segments: one with all that a view can have, one plain.

    In the first, line 0 is next to itself alone, line 2 to itself and line 1,
    line 3 to lines 1 and 0; w is wider than it must be. Line 1 turns the level
    three times, line 3 draws nothing.
    """
    first = sample_view("right ring")
    first.lines = [sample_line([2]), sample_line([-8, 3, -8, -7, -8, 7]),
                   sample_line([]), sample_line([-8, -8, -8])]
    first.index = Index(3, [[0], [], [2, 1], [1, 0]])
    first.segments = [Segment(0x0101, payload(5)), Segment(0x0102, b""),
                      Segment(0xFFFF, payload(300))]
    second = sample_view("left ring")
    second.lines = [sample_line([-8, 0, 1], 255)]
    second.segments = [Segment(0x0101, payload(1))]
    return sample_record([first, second])


def room_record():
    """242 lines of 255 codes; the segment makes the sheet 65,537 bytes long."""
    view = sample_view("left middle")
    view.lines = [long_line(place, 255) for place in range(242)]
    view.segments = [Segment(0x0101, payload(169))]
    return sample_record([view], k=2)


def headings_record(half_turn, b, directions):
    """A line for each start direction; its trail is twice its first heading.

    All of them end at three quarters of the turn, as sample A's line does.
    """
    view = sample_view("right index")
    view.lines = [sample_line([0], direction, 3 << (b - 2))
                  for direction in directions]
    return sample_record([view], b=b, half_turn=half_turn)


def a_parts():
    """Sample A's blocks: two of A's lines, line 1 next to line 0, w = 1."""
    view = sample_view("right index")
    view.lines = [sample_line([2]), sample_line([2])]
    view.index = Index(1, [[], [0]])
    return parts_of(sample_record([view]))


def a_with_byte(at, value):
    """Sample A with one byte exchanged."""
    data = bytearray(put_together(a_parts()))
    data[at] = value
    return bytes(data)


def a_with(**blocks):
    """Sample A with other blocks in its view, or other stated lengths of these."""
    parts = a_parts()
    for name, block in blocks.items():
        setattr(parts.views[0], name, block)
    return put_together(parts)


def a_with_index(text):
    """Sample A with an index block of these bytes."""
    return a_with(index=bytes.fromhex(text))


def a_with_extended(text):
    """Sample A with an extended block of these bytes."""
    return a_with(extended=bytes.fromhex(text))


def a_cut(size):
    """Sample A's first bytes; their number is the stated length."""
    data = put_together(a_parts())[:size]
    return data[0:8] + size.to_bytes(4, "big") + data[12:]


def a_and_byte():
    """Sample A and one byte behind it, which the stated length counts."""
    parts = a_parts()
    parts.after = b"\0"
    return put_together(parts)


def padding_record():
    """One of A's lines without codes: 60 bits, then 0001."""
    view = sample_view("right index")
    view.lines = [sample_line([])]
    parts = parts_of(sample_record([view]))
    block = parts.views[0].skeleton
    parts.views[0].skeleton = block[:-1] + bytes([block[-1] | 1])
    return put_together(parts)


def limit_samples():
    """The samples at and beyond the limits, by name."""
    return {
        "quality-100": build(quality_record(100)),
        "quality-101": build(quality_record(101)),
        "lines-1024": build(lines_record(1024)),
        "lines-1025": build(lines_record(1025)),
        "c-16": build(coordinates_record(16)),
        "c-17": build(coordinates_record(17)),
        "bytes-32768": build(long_record(32768)),
        "bytes-32769": put_together(parts_of(long_record(32769))),
        "empty": b"",
        "segments": build(segments_record()),
        "room": build(room_record())}


def heading_samples():
    """The samples whose trails show how first headings are rounded, by name."""
    records = {
        "headings-32": headings_record(32, 8, (1, 2, 3, 5, 6, 253, 254, 255)),
        "headings-255": headings_record(255, 4, (1, 3, 4, 5, 8, 12, 13, 15)),
        "headings-1": headings_record(1, 8, (63, 64, 65, 128, 191, 192, 193, 255))}
    return {name: build(record) for name, record in records.items()}


def refused_samples():
    """Small samples that are refused, by name, in the order of the numbers."""
    return {
        "identifier": a_with_byte(3, 0x20),
        "version": a_with_byte(5, 0x32),
        "length-57": a_with_byte(11, 57),
        "reserved-1": a_with_byte(23, 1),
        "skeleton-23": a_with(skeleton_length=23),
        "bytes-50": a_cut(50),
        "view-number-1": a_with_byte(24, 1),
        "position-11": a_with_byte(25, 11),
        "zero-byte": a_with(skeleton=a_parts().views[0].skeleton + b"\0"),
        "padding-1": padding_record(),
        "w-17": a_with_index("11 60"),
        "count-cut": a_with_index("10 00 00"),
        "difference-cut": a_with_index("03 04"),
        "difference-2": a_with_index("02 18"),
        "leftover-1": a_with_index("01 61"),
        "leftover-8": a_with_index("01 60 00"),
        "leftover-later": a_with_index("01 60 01"),
        "segment-3": a_with_extended("0101 0003"),
        "segment-5": a_with_extended("0101 0005"),
        "over-1": a_with_extended("0101 0004 00"),
        "after-1": a_and_byte()}
