"""Lists of pairs at the edges, listed one by one and not left to chance.

Every list of up to two orders on a record of two lines, and many of three; shapes
of every length; a wrong order of every sort at every place, also two of them; lists
that make w grow and shrink; lists whose records pass 32,768 bytes or the lent room
at the first, a middle or the last order, for good or only in between; very long
lists. What comes of an edge is not assumed here; pairs.py decides.
"""

from dataclasses import dataclass
from itertools import product

from answers import outcome
from build import build
from edges import two_line_record
from make import fill
from make_pairs import OTHER_KINDS
from model import LARGEST_RECORD, Index, Line, Record, Segment, View, least_width
from pairs import JOIN, ORDER_BYTES, PART, bytes_of


# The names of pairs_record's views, and that of two_line_record's.
WITHOUT_INDEX, MIDDLE, LAST = (9, 0), (2, 0), (9, 1)
TWO_LINES = (2, 0)


@dataclass
class Edge:
    """A list, what it is given to, and the room that is lent (None: any)."""

    data: bytes
    listed: bytes
    name: tuple = MIDDLE
    count: int = 8
    room: int = None


def pairs_record(neighbours, w=None, size=None):
    """Three views: the second, of another finger than the others, has lines with these
    neighbours, the first has no index, and a segment of the last fills the record to
    `size` bytes."""
    lines = [Line(1, 3, 0, 1, [], 2, 5, 1, 0)] * max(2, len(neighbours))
    index = Index(w or least_width(neighbours), neighbours)
    views = [View(0, 9, 0, 80, 16, 16, lines[:2]),
             View(0, 2, 0, 80, 16, 16, lines[:len(neighbours)], index,
                  [Segment(0x0101, b"\7")]),
             View(1, 9, 0, 80, 16, 16, lines[:2], Index(3, [[], [0]]))]
    record = Record(0, 197, 1, 4, 2, 16, 64, 32, views)
    return build(record if size is None else fill(record, size))


# Eight lines, and orders on them that can be obeyed one after another. Lines 7 and 0
# stay neighbours throughout, lines 5 and 0 never are.
EIGHT = [[], [0], [], [2], [], [], [], [7, 0]]
SEVEN_ORDERS = [(JOIN, 2, 0), (PART, 0, 1), (JOIN, 4, 4), (JOIN, 1, 6), (PART, 3, 2),
                (JOIN, 1, 0), (PART, 0, 2)]
WRONG_ORDERS = [(JOIN, 0, 7), (PART, 0, 5), (PART, 5, 5), (JOIN, 8, 0), (PART, 0, 8),
                (JOIN, 263, 0), (PART, 7, 256), (JOIN, 0, 32769), (PART, 65535, 65535)]
# The seven, and the same where the first gives 18 or 15.
BEGUN = [[first] + SEVEN_ORDERS[1:]
         for first in (SEVEN_ORDERS[0], WRONG_ORDERS[0], WRONG_ORDERS[3])]
# P11's lists: parting 30 and 15 makes w grow from 4 to 5, and joining them brings it
# back. Line 1 with itself takes 4 bits that are there, then line 2 takes a byte more.
THIRTY_ONE = [[] for _ in range(30)] + [[15, 0]]
UP, DOWN = (PART, 30, 15), (JOIN, 15, 30)
OWN, OWN_GONE, MORE, LESS = (JOIN, 1, 1), (PART, 1, 1), (JOIN, 2, 2), (PART, 2, 2)
RISING_LISTS = ([UP], [OWN], [OWN, MORE], [UP, DOWN], [UP, OWN], [OWN, UP],
                [OWN, MORE, LESS], [OWN, MORE, OWN_GONE, LESS], [OWN, UP, DOWN],
                [OWN, UP, MORE], [OWN, OWN_GONE] * 9 + [UP],
                [OWN, OWN_GONE] * 9 + [UP, OWN, OWN_GONE, DOWN],
                [UP, OWN, MORE, LESS, OWN_GONE, DOWN])
# The same with line 1 next to itself at first, so that the first join takes a byte.
WITH_OWN = [[], [1]] + THIRTY_ONE[2:]
RISING_AT_FIRST = ([MORE], [MORE, LESS], [MORE, OWN_GONE], [MORE, LESS, MORE])


def with_order(orders, place, other, length):
    """The first orders of a list, so many, with the one at `place` exchanged."""
    return orders[:place] + [other] + orders[place + 1:length]


def cut_lists():
    """A list cut at every byte, and whole lists with bytes over."""
    lists = [bytes_of(SEVEN_ORDERS)[:size] for size in range(4 * ORDER_BYTES)]
    return lists + [bytes_of(orders) + bytes(size) for orders in BEGUN
                    for size in range(1, ORDER_BYTES)]


def other_kinds(kinds):
    """First numbers that are neither 0 nor 1, at every place."""
    return [bytes_of(with_order(orders, place, (kind, *orders[place][1:]), length))
            for kind in kinds for orders in BEGUN for length in (1, 2, 3, 5)
            for place in range(length)]


def shapes(lists):
    """Each of these lists, on eight lines that its orders would fit."""
    data = pairs_record(EIGHT)
    return [Edge(data, listed) for listed in lists]


def before_shapes():
    """13, 14 and 17 come before the shape of a list, and before its orders."""
    data = pairs_record(EIGHT)
    lists = cut_lists()[:14] + other_kinds(OTHER_KINDS[:1])[:14]
    return [Edge(data, listed, name, count) for listed in lists
            for name, count in ((WITHOUT_INDEX, 2), (WITHOUT_INDEX, 3), (MIDDLE, 7),
                                (LAST, 2), ((9, 2), 8), ((2, 1), 8))]


def wrong_orders(wrong_ones):
    """Each at every place of lists of one to seven orders."""
    data = pairs_record(EIGHT)
    return [Edge(data, bytes_of(with_order(SEVEN_ORDERS, place, wrong, length)))
            for wrong in wrong_ones for length in (1, 2, 3, 7)
            for place in range(length)]


def two_wrong_orders():
    """The one before counts, whichever of the two has the lower number."""
    data = pairs_record(EIGHT)
    return [Edge(data, bytes_of(with_order(SEVEN_ORDERS, place, wrong, behind)
                                  + [other]))
            for place, behind in ((0, 1), (0, 3), (1, 2), (2, 6))
            for wrong in WRONG_ORDERS[:5] for other in WRONG_ORDERS[:5]]


def every_list():
    """All lists of one and two orders that name lines 0 to 2 of two, and all of three
    that name the two lines."""
    data = build(two_line_record())
    named = list(product((JOIN, PART), range(3), range(3)))
    right = list(product((JOIN, PART), range(2), range(2)))
    lists = [[order] for order in named] + list(product(named, repeat=2))
    return [Edge(data, bytes_of(orders), TWO_LINES, 2)
            for orders in lists + list(product(right, repeat=3))]


def widths():
    """w grows with a count and with a difference, and shrinks, one order at a time."""
    twenty = [[] for _ in range(20)]
    counted = [(JOIN, 19, lower) for lower in range(19, -1, -1)]
    far = [(JOIN, 19, lower) for lower in (0, 9, 4, 14, 2, 6, 11, 16)]
    lists = [counted, far, [(JOIN, 0, 0)], [(JOIN, 1, 0), (PART, 0, 1)]]
    lists += [orders + [(PART, second, first) for _, first, second in orders[::-1]]
              for orders in (counted, far)]
    return [Edge(pairs_record(twenty, w), bytes_of(orders[:length]), MIDDLE, 20)
            for orders in lists for w in (1, 2, 5, 16)
            for length in sorted({1, 2, 3, 7, len(orders) // 2, len(orders)})]


def risen(lengths, start):
    """Each place where a record is longer than `start` and all before, and that
    longest one before."""
    found = []
    for place, length in enumerate(lengths):
        if length > start:
            found.append((place, start))
            start = length
    return found


def limits_of(neighbours, orders):
    """A list whose records just fit 32,768 bytes or the room, or pass them by one or
    more at each place where they are longer than all before."""
    edges = []
    data, listed = pairs_record(neighbours), bytes_of(orders)
    lengths = outcome("pairs", [*MIDDLE, 31], [data, listed]).walk.lengths
    for place, before in risen(lengths, 0):
        rooms = {before, lengths[place] - 1, lengths[place], lengths[-1]}
        edges += [Edge(data, listed, MIDDLE, 31, room) for room in sorted(rooms)]
    for place, before in risen(lengths, len(data)):
        for length in sorted({before, lengths[place] - 1, lengths[place]}):
            filled = pairs_record(neighbours, None, LARGEST_RECORD - length + len(data))
            room = LARGEST_RECORD + (0, 9, -1)[len(edges) % 3]
            edges.append(Edge(filled, listed, MIDDLE, 31, room))
    return edges


def limits():
    """Of all rising lists."""
    return [edge for neighbours, lists in ((THIRTY_ONE, RISING_LISTS),
                                           (WITH_OWN, RISING_AT_FIRST))
            for orders in lists for edge in limits_of(neighbours, orders)]


def long_lists():
    """Places that pass 8 and 16 bits, and lists that are long and misshapen."""
    data = build(two_line_record())
    turns = bytes_of([(JOIN, 1, 1), (PART, 1, 1)])
    join, part = turns[:ORDER_BYTES], turns[ORDER_BYTES:]
    wrong = bytes_of([(JOIN, 2, 1)])
    lists = [turns * 128 + part, turns * 128 + wrong, turns * 600, turns * 127 + join,
             turns * 32768 + part, wrong + turns * 32768 + b"\0", wrong + bytes(131072),
             bytes(65536), bytes(65538), join + turns * 200 + bytes(4)]
    return [Edge(data, listed, TWO_LINES, 2, 100) for listed in lists]


def list_edges():
    """All of them; those that no shorter list may leave out come first."""
    first = (limits() + long_lists() + wrong_orders(WRONG_ORDERS[2:4])
             + shapes(cut_lists() + other_kinds(OTHER_KINDS[:1])))
    return first, (widths() + wrong_orders(WRONG_ORDERS[:2] + WRONG_ORDERS[4:])
                   + two_wrong_orders() + shapes(other_kinds(OTHER_KINDS[1:]))
                   + before_shapes() + every_list())
