"""Damages right records: each kind breaks one rule and leaves the rest right.

What a damaged record is refused with is not assumed here; the judge decides.
The kinds are named after what they touch, in the order of the record.
"""

from bits import BitList, with_bit_turned
from build import parts_of, put_together
from make import many_lines
from model import MOST_LINES, differences


def any_view(rng, parts):
    return rng.choice(parts.views)


def with_length(data):
    """The bytes with a record length that is true again."""
    return data[0:8] + len(data).to_bytes(4, "big") + data[12:]


def header_byte(rng, parts):
    """One header byte at or beyond its limits."""
    at = rng.choice((0, 1, 2, 3, 4, 5, 6, 7, 14, 15, 16, 17, 18, 19, 21, 22, 23))
    parts.header[at] = rng.choice((0, 1, 2, 3, 4, 8, 9, 16, 17, 255))
    return put_together(parts)


def header_zero(rng, parts):
    """One header field that may not be 0 is."""
    parts.header[rng.choice((14, 15, 16, 17, 18, 19, 21))] = 0
    return put_together(parts)


def stated_length(rng, parts):
    data = put_together(parts)
    stated = rng.choice((len(data) - 1, len(data) + 1, len(data) + 256, 0,
                         len(data) + 65536, 0xFFFFFFFF, 32768, 32769))
    return data[0:8] + stated.to_bytes(4, "big") + data[12:]


def cut(rng, parts):
    """Cut at any byte; the stated length mostly follows."""
    data = put_together(parts)
    data = data[:rng.randint(24, len(data))]
    return with_length(data) if rng.random() < 0.9 else data


def too_short(rng, parts):
    return put_together(parts)[:rng.randint(0, 23)]


def too_long(rng, parts):
    data = put_together(parts)
    return with_length(data + bytes(max(0, rng.choice((32769, 33000)) - len(data))))


def bytes_after(rng, parts):
    parts.after = rng.choice((b"\0", rng.randbytes(rng.randint(1, 12))))
    return put_together(parts)


def view_count(rng, parts):
    """One view too few or too many is stated."""
    parts.header[14] = (parts.header[14] + rng.choice((1, -1, 100))) % 256
    return put_together(parts)


def view_value(rng, parts):
    """Number, position, impression or quality at or beyond its limits."""
    header = any_view(rng, parts).header
    at = rng.randint(0, 3)
    values = ((header[0] ^ 1, (header[0] + 1) % 256, 255), (11, 255, 10, 0),
              (4, 5, 6, 7, 10, 255), (101, 255, 128))[at]
    header[at] = rng.choice(values)
    return put_together(parts)


def inner_length(rng, parts):
    """A stated skeleton, index or extended length that is off."""
    view = any_view(rng, parts)
    name = rng.choice(("skeleton", "index", "extended"))
    true = len(getattr(view, name))
    off = max(0, true + rng.choice((-4, -2, -1, 1, 2, 3, 4)))
    stated = rng.choice((off, off, off, rng.randint(0, 65535), 65535, 32768))
    setattr(view, name + "_length", stated)
    return put_together(parts)


def skeleton_zero_byte(rng, parts):
    """Eight zero bits more than padding may have."""
    view = any_view(rng, parts)
    view.skeleton += bytes(rng.choice((1, 1, 1, 2, 3, 8)))
    return put_together(parts)


def skeleton_cut(rng, parts):
    view = any_view(rng, parts)
    view.skeleton = view.skeleton[:-rng.randint(1, 4)]
    return put_together(parts)


def skeleton_last_bits(rng, parts):
    """One of the block's last eight bits turned: often a padding bit."""
    view = any_view(rng, parts)
    if len(view.skeleton) > 0:
        view.skeleton = with_bit_turned(
            view.skeleton, 8 * len(view.skeleton) - rng.randint(1, 8))
    return put_together(parts)


def index_width(rng, parts):
    view = any_view(rng, parts)
    old = view.index[0] if view.index else 1
    w = rng.choice((0, 17, 255, 16, 1, (old + 1) % 256, max(0, old - 1)))
    view.index = bytes([w]) + view.index[1:]
    return put_together(parts)


def index_leftover(rng, parts):
    """Zero bytes too many, a 1 in what is left over, or both."""
    view = any_view(rng, parts)
    view.index = view.index or b"\1"
    if rng.random() < 0.6:
        view.index += bytes(rng.choice((1, 1, 2, 5)))
    if rng.random() < 0.6:
        last = min(8 * len(view.index) - 8, rng.choice((1, 7, 8, 9, 16, 24)))
        if last > 0:
            view.index = with_bit_turned(
                view.index, 8 * len(view.index) - rng.randint(1, last))
    return put_together(parts)


def index_cut(rng, parts):
    view = any_view(rng, parts)
    view.index = view.index[:-rng.randint(1, 2)]
    return put_together(parts)


def broken_block(rng, view):
    """An index block in which one list breaks a rule of clause 6.3.2."""
    lines, index = len(view.lines), view.index
    lists = [differences(line, listed) for line, listed
             in enumerate(index.neighbours if index else [[]] * lines)]
    kind = rng.choice(("later zero", "over by one", "count", "over far"))
    if lines > 0:
        line = rng.randrange(lines)
        if kind == "later zero":
            lists[line].insert(rng.randint(1, len(lists[line])) if lists[line]
                               else 0, 0)
            lists[line].append(0)
        elif kind == "over by one":
            lists[line].append(line - sum(lists[line]) + 1)
        elif kind == "over far":
            lists[line].append(line + rng.randint(1, 9))
    w = max([1] + [max([len(listed)] + listed).bit_length() for listed in lists])
    bits = BitList()
    bits.put(w, 8)
    for line, listed in enumerate(lists):
        wrong_count = kind == "count" and line == lines - 1
        bits.put((1 << w) - 1 if wrong_count else len(listed), w)
        for difference in listed:
            bits.put(difference, w)
    return bits.to_bytes()


def broken_index(rng, record):
    """A record in which one view has such an index block."""
    parts = parts_of(record)
    place = rng.randrange(len(record.views))
    parts.views[place].index = broken_block(rng, record.views[place])
    return put_together(parts)


def ends_in_block(rng, parts):
    """The record ends where its last view's skeleton or index block does."""
    view = parts.views[-1]
    view.extended = b""
    if rng.random() < 0.5:
        view.index = b""
        view.skeleton = view.skeleton[:rng.randint(0, len(view.skeleton))]
        return with_length(put_together(parts)[:-4])
    view.index = view.index[:rng.randint(0, len(view.index))]
    return with_length(put_together(parts)[:-2])


def segment_length(rng, parts):
    """A segment length of 0, 3 or 4, or one past its block."""
    view = any_view(rng, parts)
    if len(view.extended) < 4:
        view.extended = bytes([0, 1, 0, 6, 9, 9])
    left = len(view.extended)
    length = rng.choice((0, 3, 4, left - 1, left + 1, left + 2, 65535))
    view.extended = (view.extended[:2] + length.to_bytes(2, "big")
                     + view.extended[4:])
    return put_together(parts)


def segment_bytes_over(rng, parts):
    any_view(rng, parts).extended += rng.randbytes(rng.randint(1, 3))
    return put_together(parts)


def turned_bits(rng, parts):
    data = put_together(parts)
    for _ in range(rng.choice((1, 1, 2, 4))):
        data = with_bit_turned(data, rng.randrange(192, 8 * len(data)))
    return data


def noise(rng, parts):
    """A right header, then chance."""
    data = bytes(parts.header[:14]) + b"\1" + bytes(parts.header[15:])
    return with_length(data + rng.randbytes(rng.randint(0, 60)))


def too_many_lines(rng, _parts):
    """1,025 lines, or 1,024 and some bits more than padding."""
    count = rng.choice((MOST_LINES, MOST_LINES, MOST_LINES + 1))
    parts = parts_of(many_lines(rng, count))
    if count == MOST_LINES:
        parts.views[0].skeleton += rng.choice((b"\0", b"\xff", b"\0\0\0\0"))
    return put_together(parts)


KINDS = (header_byte, header_zero, stated_length, cut, too_short, bytes_after,
         view_count, bytes_after, view_value, inner_length, skeleton_zero_byte,
         skeleton_cut, skeleton_last_bits, index_width, index_leftover, index_cut,
         broken_index, ends_in_block, segment_length, segment_bytes_over,
         turned_bits, noise)
LONG_KINDS = (too_many_lines, too_long)


def damaged(rng, record, kind):
    """The bytes of a record damaged in one way."""
    if kind is broken_index:
        return kind(rng, record)
    return kind(rng, parts_of(record))
