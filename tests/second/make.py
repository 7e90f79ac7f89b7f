"""Makes random right records as structures, from a seeded source of chance.

The kinds differ in what they reach: all widths, few and many lines, several views
of one finger between those of others, indexes of every sort, segments of local
quality and of pores (right or not) and of other types, and records that fill 32,768
bytes to the last. Damage is done elsewhere.
"""

import make_pores
import make_quality
from build import parts_of, size_of
from make_quality import random_size
from model import (IMPRESSIONS, LARGEST_RECORD, MOST_LINES, PORES_TYPE, QUALITY_TYPE,
                   Index, Line, Record, Segment, View, least_width)
from names import POSITIONS


def number(rng, width, style):
    """A number of `width` bits: any, all zeros, or all ones."""
    if style == "zeros":
        return 0
    if style == "ones":
        return (1 << width) - 1
    return rng.getrandbits(width)


def random_codes(rng, k, count, style):
    """Codes in two's complement; some styles turn the level often."""
    turn = -(1 << (k - 1))
    if style == "zeros":
        return [0] * count
    if style == "ones":
        return [-1] * count
    codes = [rng.randrange(turn, -turn) for _ in range(count)]
    if style == "turns":
        codes = [turn if rng.random() < 0.4 else code for code in codes]
    return codes


def random_line(rng, record, most_codes, style):
    """One line at the record's widths."""
    b, c = record.b, record.c
    count = rng.randint(0, most_codes)
    if rng.random() < 0.01:
        count = 255
    return Line(number(rng, 2, style), number(rng, b, style),
                number(rng, c, style), number(rng, c, style),
                random_codes(rng, record.k, count, style),
                number(rng, 2, style), number(rng, b, style),
                number(rng, c, style), number(rng, c, style))


def random_neighbours(rng, lines):
    """A list of neighbours for each line, highest first."""
    density = rng.choice((0.0, 0.05, 0.1, 0.3, 0.6, 1.0))
    own = rng.choice((0.0, 0.0, 0.3, 1.0))
    if lines > 60:
        density = min(density, 6.0 / lines)
    neighbours = []
    for line in range(lines):
        listed = [line] if rng.random() < own else []
        for lower in range(line - 1, -1, -1):
            if rng.random() < density:
                listed.append(lower)
        neighbours.append(listed)
    return neighbours


def random_index(rng, lines):
    """No index, or one at least width, or one wider than needed."""
    if rng.random() < 0.25:
        return None
    neighbours = random_neighbours(rng, lines)
    least = least_width(neighbours)
    w = rng.choice((least, least, rng.randint(least, 16), 16))
    return Index(w, neighbours)


def random_payload(rng, type_, view):
    """A payload of local quality, of pores, or of any bytes; it may be empty."""
    if type_ == QUALITY_TYPE:
        return make_quality.random_payload(rng, view)
    if type_ == PORES_TYPE:
        return make_pores.random_payload(rng, len(view.lines), 0.85)
    size = rng.choice((0, 0, 1, 2, rng.randint(0, 12), rng.randint(0, 80)))
    return rng.randbytes(size)


def random_segments(rng, most, view):
    """Segments of local quality, of pores, of other types, or of all of these; what one
    type holds may stand under another."""
    share = rng.choice((0.0, 0.5, 1.0, 1.0))
    both = (QUALITY_TYPE, PORES_TYPE)
    known = rng.choice((both[:1], both[1:], both, both))
    segments = []
    for _ in range(rng.randint(1, most)):
        type_ = rng.choice((0, 1, 2, 5, 255, 0x0103, 0x0300, rng.getrandbits(16)))
        if rng.random() < share:
            type_ = rng.choice(known)
        held = rng.choice((3, 4, 5)) if rng.random() < 0.1 else type_
        segments.append(Segment(type_, random_payload(rng, held, view)))
    return segments


def add_view(rng, record, position, lines, most_codes, style, segments):
    """Adds one view whose number is right for its position."""
    earlier = sum(1 for view in record.views if view.position == position)
    view = View(earlier, position, rng.choice(IMPRESSIONS),
                rng.choice((0, 100, rng.randint(0, 100))),
                number(rng, 16, style), number(rng, 16, style))
    if rng.random() < 0.85:
        view.width, view.height = random_size(rng), random_size(rng)
    view.lines = [random_line(rng, record, most_codes, style)
                  for _ in range(lines)]
    view.index = random_index(rng, lines)
    if rng.random() < segments:
        view.segments = random_segments(rng, 4, view)
    record.views.append(view)
    return view


def random_header(rng):
    """A record without views; every width is met."""
    return Record(rng.getrandbits(16), rng.choice((1, 255, rng.randint(1, 255))),
                  rng.randint(1, 16), rng.randint(4, 8), rng.randint(2, 8),
                  rng.choice((1, 255, rng.randint(1, 255))), rng.getrandbits(8),
                  rng.choice((1, 2, 32, 255, rng.randint(1, 255))))


def random_style(rng):
    return rng.choice(("any", "any", "any", "turns", "turns", "zeros", "ones"))


def random_positions(rng, count):
    """Finger positions out of one, a few or all of them, in any order."""
    few = rng.sample(POSITIONS, rng.choice((1, 2, 3, 11, 11)))
    return [rng.choice(few) for _ in range(count)]


def random_record(rng, size, segments=0.5, record=None):
    """A right record; size is tiny, small, middle, fingers or views. A record without
    views may be given, whose header it then has."""
    views, lines, codes = {"tiny": (1, 2, 3), "small": (2, 6, 8),
                           "middle": (4, 30, 12), "fingers": (9, 5, 3),
                           "views": (40, 2, 2)}[size]
    count = rng.randint(4 if size == "fingers" else 1, views)
    if size == "views" and rng.random() < 0.1:
        count = rng.choice((254, 255))
    record = record or random_header(rng)
    for position in random_positions(rng, count):
        add_view(rng, record, position, rng.randint(0, lines),
                 rng.randint(0, codes), random_style(rng), segments)
    return record


def fill(record, size, view=None, type_=0x0123):
    """Adds one segment to a view, the last if none is given, so that the record has
    `size` bytes."""
    gap = size - size_of(parts_of(record)) - 4
    (view or record.views[-1]).segments.append(
        Segment(type_, bytes((7 * at + 1) % 256 for at in range(gap))))
    return record


def narrow_header(rng, k=4):
    """A record without views in which a line is short, so that many fit."""
    record = random_header(rng)
    record.c, record.b, record.k = rng.randint(1, 3), rng.randint(4, 8), k
    return record


def full_of_codes(rng, size=LARGEST_RECORD):
    """A record of `size` bytes that its skeleton block fills."""
    record = narrow_header(rng, k=8)
    view = add_view(rng, record, 1, 200, 150, "any", 0.0)
    view.index = None
    gap = size - size_of(parts_of(record))
    for line in view.lines:
        more = max(0, min(gap, 255 - len(line.codes)))
        line.codes = line.codes + random_codes(rng, 8, more, "turns")
        gap -= more
    return record


def full_of_neighbours(rng, size=LARGEST_RECORD):
    """A record of `size` bytes that its index block, at w = 8, nearly fills."""
    record = narrow_header(rng)
    view = add_view(rng, record, 9, 240, 0, "any", 0.0)
    view.segments = []
    view.index = Index(8, [list(range(line, -1, -1)) for line in range(240)])
    return fill(record, size)


def many_lines(rng, count, w=None):
    """A record with one view of `count` lines, and with an index and pores if w is
    given."""
    record = narrow_header(rng)
    view = add_view(rng, record, 0, 0, 0, "any", 0.0)
    view.lines = [random_line(rng, record, 2, "any") for _ in range(count)]
    view.index, view.segments = None, []
    if w is not None:
        view.segments = [Segment(PORES_TYPE, random_payload(rng, PORES_TYPE, view))]
        neighbours = [[] for _ in range(count)]
        for line in range(1, count, 7):
            neighbours[line] = [line - 1]
        view.index = Index(max(w, least_width(neighbours)), neighbours)
    return record


def all_neighbours(rng, but):
    """1,024 lines; the last is next to all, itself too, but for `but` of them.

    A count of 1,024 needs w = 11, while 1,023 and every difference fit 10.
    """
    record = many_lines(rng, MOST_LINES, 1)
    neighbours = record.views[0].index.neighbours
    neighbours[-1] = list(range(MOST_LINES - 1, but - 1, -1))
    record.views[0].index.w = least_width(neighbours)
    return record


def long_records(rng):
    """A few long right records; they are made once and lent many times."""
    return [many_lines(rng, MOST_LINES), many_lines(rng, MOST_LINES, 1),
            many_lines(rng, MOST_LINES, 16), many_lines(rng, MOST_LINES - 1, 3),
            all_neighbours(rng, 0), all_neighbours(rng, 1),
            full_of_codes(rng), full_of_neighbours(rng),
            fill(random_record(rng, "small"), LARGEST_RECORD),
            fill(random_record(rng, "middle"), LARGEST_RECORD - 1),
            fill(random_record(rng, "views"), LARGEST_RECORD)]


def growing(rng, bits):
    """A record in which the least width grows with an order, and the middle line.

    The first view has an index in which only the last line has neighbours, the middle
    line and line 0, so that removing or parting the middle one leaves a
    difference one bit wider than `bits`.
    """
    middle = (1 << bits) - 1
    record = narrow_header(rng)
    view = add_view(rng, record, 3, 0, 0, "any", 0.0)
    lines = 2 * middle + 1
    view.lines = [random_line(rng, record, 0, "any") for _ in range(lines)]
    for line in view.lines:
        line.codes = []
    view.index = Index(bits, [[] for _ in range(lines)])
    view.index.neighbours[lines - 1] = [middle, 0]
    view.index.w = least_width(view.index.neighbours)
    add_view(rng, record, 3, 1, 2, "any", 0.0)
    return record, middle
