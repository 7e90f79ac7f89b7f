"""The blocks of cards' objects at the edges, listed one by one and not left to chance.

Skeletons and indexes are cut, have bits too many or break each rule; there are 1,024
lines and more, and records of 32,768 bytes and more. Each edge is a size number and an
object's bytes. The parts from which edges_card.py makes its own are here too.
"""

from copy import deepcopy
from functools import lru_cache, partial
from itertools import product

from bits import with_bit_turned
from card_build import MOST_LENGTH, Wrapped, card_bytes, card_parts, inside_bytes
from faults import BROKEN_INDEXES
from make_card import card_record, lines_of_bytes, plain_line, shortest_line
from model import LARGEST_RECORD, MOST_LINES, Index, View

# The bytes of a record of one view besides its two blocks, and those of 90's value.
RECORD_FRAME = 38
VALUE_FRAME = 8
LONGEST_BLOCKS = LARGEST_RECORD - RECORD_FRAME


def kept(make):
    """A maker of parts that makes each of them once, and hands out copies."""
    made = lru_cache(maxsize=None)(make)
    return lambda *arguments, **named: deepcopy(made(*arguments, **named))


def parts_with(size, lines, index=None, behind=()):
    """The parts of an object with these lines and this index; 300 by 2."""
    view = View(0, 0, 0, 0, 300, 2, lines, index)
    parts = card_parts(card_record(size), view)
    parts.behind = list(behind)
    return parts


def small_parts(size, behind=()):
    """Two lines, of which the first has a code; line 1 is next to itself and to 0."""
    return parts_with(size, [plain_line(5, 1), plain_line(6, 0)],
                      Index(2, [[], [1, 0]]), behind)


@kept
def of_blocks(size, number):
    """The parts of an object whose skeleton has so many bytes; no index."""
    return parts_with(size, lines_of_bytes(card_record(size), number))


def with_parts(size, make, **changes):
    """An edge: an object whose parts are made at a size and then changed."""
    parts = make(size)
    for name, value in changes.items():
        setattr(parts, name, value)
    return size, card_bytes(parts)


def skeletons(size):
    """Skeletons cut at every byte, with bytes too many, and with ones in the padding,
    which has four bits where there is one code."""
    block = small_parts(size).skeleton
    found = [with_parts(size, small_parts, skeleton=other) for other in (
        *(block[:length] for length in range(len(block))), block + b"\0",
        block + bytes(7), block + b"\xff")]
    one_line = partial(parts_with, lines=[plain_line(5, 1)])
    block = one_line(size).skeleton
    return found + [
        with_parts(size, one_line, skeleton=with_bit_turned(block, 8 * len(block) - bit))
        for bit in range(1, 6)]


def broken_indexes(size):
    """Index blocks over two lines that break each rule."""
    return [with_parts(size, small_parts, index=bytes.fromhex(block))
            for _, _, block in BROKEN_INDEXES]


def over_no_lines(size):
    """Index blocks over no lines, which are right where they are w alone, and none."""
    return [with_parts(size, partial(of_blocks, number=0), index=block)
            for block in (b"", b"\0", b"\1", b"\x10", b"\x11", b"\1\0")]


def indexes(size):
    """Short index blocks over no lines and over two, right and not."""
    found = []
    for w, rest in product((0, 1, 2, 3, 8, 15, 16, 17, 255), (
            "", "00", "01", "80", "0000", "0001", "FFFFFFFF", "00000000", "20", "60", "B0",
            "28", "5800")):
        block = bytes([w]) + bytes.fromhex(rest)
        found += [with_parts(size, small_parts, index=block),
                  with_parts(size, partial(of_blocks, number=0), index=block)]
    return found


@kept
def many_lines(size, count):
    """The parts of an object with so many lines without codes."""
    return parts_with(size, [plain_line(at, 0) for at in range(count)])


def line_edges(size):
    """1,023 to 1,025 lines with nothing, zero bytes or ones behind them."""
    return [with_parts(size, partial(many_lines, count=count),
                       skeleton=many_lines(size, count).skeleton + more)
            for count in (MOST_LINES - 1, MOST_LINES, MOST_LINES + 1)
            for more in (b"", b"\0", b"\xff", bytes(9))]


@kept
def long_lines(size, number, w=None):
    """1,024 lines in a skeleton of so many bytes: at least 29 each, and some more. There
    is an index if w is given, in which no line has neighbours."""
    each, more = 29, number - 29 * MOST_LINES
    lines = []
    for at in range(MOST_LINES):
        taken = min(more, 100)
        codes = 2 * (each + taken - shortest_line(card_record(size)))
        lines.append(plain_line(at, codes))
        more -= taken
    return parts_with(size, lines, Index(w, [[]] * MOST_LINES) if w else None)


def limits(size):
    """Records of 32,767 to 32,770 bytes, of few lines, of 1,024, and of as many with an
    index of 2,049 bytes; and the longest templates that there can be: by an object
    behind 90, and by 90."""
    found = [with_parts(size, partial(of_blocks, number=LONGEST_BLOCKS + past))
             for past in (-1, 0, 1, 2)]
    for past in (0, 1):
        found += [with_parts(size, partial(long_lines, number=LONGEST_BLOCKS + past)),
                  with_parts(size, partial(long_lines, number=LONGEST_BLOCKS - 2049 + past,
                                           w=16))]
    inner = len(inside_bytes(small_parts(size)))
    behind = Wrapped(b"\x96", bytes(MOST_LENGTH - inner - 4))
    return found + [
        with_parts(size, small_parts, behind=[behind]),
        with_parts(size, partial(of_blocks, number=MOST_LENGTH - 4 - VALUE_FRAME))]
