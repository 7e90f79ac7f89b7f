"""The local quality of a view, which segments of type 0x0003 hold: request [3].

A payload has the cell width, the cell height and the bits per cell in a byte
each, then a value for each cell in so many bits, left to right and top to
bottom, and zero bits up to a whole byte. A host passes the same as values: these
three bytes and a byte for each cell. Both are judged here (24), and both are
written from the structure. A view can have over four thousand million cells, so
the number of bytes is compared before a cell is read.
"""

from dataclasses import dataclass, replace

from bits import BitList, first_one, number_at
from model import QUALITY_FAULTS, QUALITY_TYPE, Refusal, refusing

FIRST_BYTES = 3
MOST_BITS = 8
PAYLOAD_FAULTS = tuple(fault for fault in QUALITY_FAULTS
                       if fault != "value above its bits")
VALUE_FAULTS = tuple(fault for fault in QUALITY_FAULTS if fault != "1 in padding")

# The ways in which accepted calls differ; they are only counted.
READINGS = ("no cells", "no padding", "padding")
REWRITINGS = ("mended", "unchanged", "other cells", "longer", "shorter")
CARRIED = ("no segments", "quality well formed", "quality not well formed")

# 24 where a rule is broken.
must = refusing(24)


@dataclass
class Quality:
    """The cells' size, the bits per cell, and each cell's value in raster order."""

    cell_width: int
    cell_height: int
    bits: int
    cells: list


def cells_along(size, cell):
    """The cells in a row, or the rows: a width or height over the cell's, upwards."""
    return (size + cell - 1) // cell


def number_of_cells(view, cell_width, cell_height):
    """The cells of a view; width or height 0 means none."""
    return cells_along(view.width, cell_width) * cells_along(view.height, cell_height)


def bytes_for(cells, bits):
    """The whole bytes that so many values of so many bits take."""
    return (cells * bits + 7) // 8


def judge_first_bytes(data, view):
    """24 over the three bytes with which payload and values start; gives them, and
    the number of cells that the view then has."""
    must(len(data) >= FIRST_BYTES, "under 3 bytes")
    cell_width, cell_height, bits = data[:FIRST_BYTES]
    must(cell_width >= 1, "cell width 0")
    must(cell_height >= 1, "cell height 0")
    must(bits >= 1, "bits 0")
    must(bits <= MOST_BITS, "bits above 8")
    return cell_width, cell_height, bits, number_of_cells(view, cell_width, cell_height)


def judge_length(data, wanted):
    """24 unless so many bytes follow the first three."""
    must(len(data) >= FIRST_BYTES + wanted, "too few bytes")
    must(len(data) <= FIRST_BYTES + wanted, "too many bytes")


def from_payload(payload, view):
    """The Quality that a view's payload holds; 24 otherwise."""
    cell_width, cell_height, bits, count = judge_first_bytes(payload, view)
    judge_length(payload, bytes_for(count, bits))
    start = 8 * FIRST_BYTES
    one = first_one(payload, start + count * bits, 8 * len(payload))
    must(one is None, "1 in padding")
    cells = [number_at(payload, start + place * bits, bits) for place in range(count)]
    return Quality(cell_width, cell_height, bits, cells)


def from_values(values, view):
    """The Quality that values tell of a view; 24 otherwise."""
    cell_width, cell_height, bits, count = judge_first_bytes(values, view)
    judge_length(values, count)
    cells = list(values[FIRST_BYTES:])
    for value in cells:
        must(value < 1 << bits, "value above its bits")
    return Quality(cell_width, cell_height, bits, cells)


def first_bytes(quality):
    return bytes([quality.cell_width, quality.cell_height, quality.bits])


def to_payload(quality):
    """The payload: the first three bytes, the values, zero bits."""
    bits = BitList()
    for value in quality.cells:
        bits.put(value, quality.bits)
    return first_bytes(quality) + bits.to_bytes()


def to_values(quality):
    """The values: the first three bytes and a byte for each cell."""
    return first_bytes(quality) + bytes(quality.cells)


def read(view, segment):
    """The Quality of a view's segment: 24 for another type or a broken payload."""
    must(segment.type == QUALITY_TYPE, "type")
    return from_payload(segment.payload, view)


def rewrite(view, place, values):
    """The view with one segment's payload made from values; its old payload is not
    judged: 24 for another type or broken values."""
    segment = view.segments[place]
    must(segment.type == QUALITY_TYPE, "type")
    segments = list(view.segments)
    segments[place] = replace(segment, payload=to_payload(from_values(values, view)))
    return replace(view, segments=segments)


def is_well_formed(view, segment):
    """Whether reading accepts a view's segment."""
    try:
        read(view, segment)
    except Refusal:
        return False
    return True


def reading(quality):
    """In which way a payload was read: one of READINGS."""
    if not quality.cells:
        return "no cells"
    return "padding" if len(quality.cells) * quality.bits % 8 else "no padding"


def rewriting(view, place, new):
    """In which way a payload was rewritten: one of REWRITINGS."""
    segment, payload = view.segments[place], new.segments[place].payload
    if not is_well_formed(view, segment):
        return "mended"
    if payload == segment.payload:
        return "unchanged"
    if len(payload) == len(segment.payload):
        return "other cells"
    return "longer" if len(payload) > len(segment.payload) else "shorter"


def carried(view):
    """What a removal carries along in a view: one of CARRIED; none where all segments
    are of another type."""
    if not view.segments:
        return ("no segments",)
    found = [segment for segment in view.segments if segment.type == QUALITY_TYPE]
    if not found:
        return ()
    right = all(is_well_formed(view, segment) for segment in found)
    return ("quality well formed" if right else "quality not well formed",)
