"""Builds a record's bytes from its structure, block by block.

The blocks are kept apart as Parts first, so that the makers of damaged
records can change one block or one stated length and leave the rest right.
"""

from dataclasses import dataclass, field

from bits import BitList, unsigned
from model import (HEADER_BYTES, IDENTIFIER, LARGEST_RECORD, VERSION,
                   VIEW_HEADER_BYTES, Refusal, differences)


@dataclass
class ViewParts:
    """A view's blocks; a stated length of None means the block's own length."""

    header: bytearray
    skeleton: bytes
    index: bytes
    extended: bytes
    skeleton_length: int = None
    index_length: int = None
    extended_length: int = None


@dataclass
class Parts:
    """A record's header (24 bytes, the length still zero), views, bytes after."""

    header: bytearray
    views: list = field(default_factory=list)
    after: bytes = b""


def header_bytes(record):
    """Bytes 0 to 23 with a record length of zero."""
    header = bytearray(HEADER_BYTES)
    header[0:4] = IDENTIFIER
    header[4:8] = VERSION
    header[12:14] = record.device.to_bytes(2, "big")
    header[14] = len(record.views)
    header[15] = record.points
    header[16] = record.c
    header[17] = record.b
    header[18] = record.k
    header[19] = record.straight
    header[20] = record.perpendicular
    header[21] = record.half_turn
    return header


def view_header_bytes(view):
    """The view header without its skeleton length: 8 bytes."""
    return (bytes([view.number, view.position, view.impression, view.quality])
            + view.width.to_bytes(2, "big") + view.height.to_bytes(2, "big"))


def skeleton_bytes(lines, record):
    """The skeleton block: the lines without padding, then zero bits."""
    bits = BitList()
    for line in lines:
        bits.put(line.start_type, 2)
        bits.put(line.start_direction, record.b)
        bits.put(line.start_x, record.c)
        bits.put(line.start_y, record.c)
        bits.put(len(line.codes), 8)
        for code in line.codes:
            bits.put(unsigned(code, record.k), record.k)
        bits.put(line.end_type, 2)
        bits.put(line.end_direction, record.b)
        bits.put(line.end_x, record.c)
        bits.put(line.end_y, record.c)
    return bits.to_bytes()


def index_bytes(index):
    """The index block; empty if the view has no index."""
    if index is None:
        return b""
    bits = BitList()
    bits.put(index.w, 8)
    for line, neighbours in enumerate(index.neighbours):
        bits.put(len(neighbours), index.w)
        for difference in differences(line, neighbours):
            bits.put(difference, index.w)
    return bits.to_bytes()


def index_size(index):
    """The bytes that index_bytes gives, counted and not made."""
    if index is None:
        return 0
    numbers = sum(1 + len(neighbours) for neighbours in index.neighbours)
    return 1 + (numbers * index.w + 7) // 8


def extended_bytes(segments):
    """The extended block; 19 if a segment's length passes 16 bits."""
    block = bytearray()
    for segment in segments:
        length = 4 + len(segment.payload)
        if length > 65535:
            raise Refusal(19)
        block += segment.type.to_bytes(2, "big") + length.to_bytes(2, "big")
        block += segment.payload
    return bytes(block)


def parts_of(record):
    """The blocks of a record."""
    parts = Parts(header_bytes(record))
    for view in record.views:
        parts.views.append(ViewParts(bytearray(view_header_bytes(view)),
                                     skeleton_bytes(view.lines, record),
                                     index_bytes(view.index),
                                     extended_bytes(view.segments)))
    return parts


def size_of(parts):
    """The bytes that a record of these blocks has."""
    size = HEADER_BYTES + len(parts.after)
    for view in parts.views:
        size += VIEW_HEADER_BYTES + len(view.skeleton)
        size += 2 + len(view.index)
        size += 2 + len(view.extended)
    return size


def length_bytes(block, stated):
    """A block's length field; the stated length, if there is one, is written."""
    length = len(block) if stated is None else stated
    return length.to_bytes(2, "big")


def put_together(parts):
    """The record's bytes, whatever their number."""
    data = bytearray(parts.header)
    data[8:12] = size_of(parts).to_bytes(4, "big")
    for view in parts.views:
        data += view.header + length_bytes(view.skeleton, view.skeleton_length)
        data += view.skeleton
        data += length_bytes(view.index, view.index_length) + view.index
        data += length_bytes(view.extended, view.extended_length) + view.extended
    return bytes(data + parts.after)


def build(record):
    """The record's bytes; 19 if they are more than 32,768."""
    parts = parts_of(record)
    if size_of(parts) > LARGEST_RECORD:
        raise Refusal(19)
    return put_together(parts)
