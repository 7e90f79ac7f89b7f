"""Lists of pairs as assertions: records, places and rooms worked out by hand.

samples.py runs these. They show that the orders of a list are given one after
another, so that the last word on a pair counts, which order's number and place a
refused list has, that 19 and 20 look at every record in between, and that a list
comes to just what its orders given singly come to.
"""

from itertools import product

from answers import given_singly, lent, outcome
from build import build
from faults import base_bytes
from judge import judge
from make import fill
from model import LIST_FAULTS, Index, Line, Record, View
from names import name_of
from pairs import JOIN, PART, bytes_of

PLENTY = 100
# The names of sample A's view, and of the views of faults.py's record of 85 bytes.
A_VIEW = (2, 0)
BASE_VIEWS = ((2, 0), (2, 1))

# Lists that sample A accepts, and the index block that comes of each, worked out by
# hand. At first it is 01 60: w = 1, line 0 has no neighbours (0), line 1 has line 0
# (1 1). The bits of each new block stand beside it.
BY_HAND = (
    ([(JOIN, 0, 0)], "01 B0"),                                      # 1 0  1 1
    ([(JOIN, 1, 1)], "02 21"),                                      # 00  10 00 01
    ([(PART, 0, 1)], "01 00"), ([(PART, 1, 0)], "01 00"),           # 0  0
    ([(JOIN, 0, 0), (PART, 1, 0)], "01 80"),                        # 1 0  0
    ([(JOIN, 0, 0), (JOIN, 1, 1)], "02 48 40"),                     # 01 00  10 00 01
    ([(JOIN, 0, 0), (JOIN, 1, 1), (PART, 0, 0)], "02 21"),
    ([(JOIN, 0, 0), (JOIN, 1, 1), (PART, 0, 1)], "01 A0"),          # 1 0  1 0
    ([(JOIN, 0, 0), (PART, 0, 0)], "01 60"), ([(PART, 0, 1), (JOIN, 1, 0)], "01 60"),
    ([(PART, 0, 1), (JOIN, 1, 0), (PART, 1, 0)], "01 00"),
    ([(JOIN, 1, 1), (PART, 1, 1)] * 3 + [(JOIN, 1, 1)], "02 21"))

# Lists that sample A refuses in ample room: number and place.
REFUSED = (
    ([(JOIN, 0, 1)], 18, 0), ([(JOIN, 1, 0)], 18, 0), ([(PART, 1, 1)], 18, 0),
    ([(JOIN, 0, 2)], 15, 0), ([(PART, 2, 0)], 15, 0), ([(PART, 65535, 256)], 15, 0),
    ([(JOIN, 0, 0), (JOIN, 0, 0)], 18, 1), ([(PART, 0, 1), (PART, 1, 0)], 18, 1),
    ([(JOIN, 0, 0), (JOIN, 2, 0), (JOIN, 1, 1)], 15, 1),
    ([(JOIN, 0, 0), (JOIN, 1, 1), (PART, 0, 2)], 15, 2),
    ([(JOIN, 0, 0), (PART, 0, 0), (PART, 0, 0)], 18, 2),
    ([(JOIN, 0, 1), (JOIN, 2, 2)], 18, 0), ([(JOIN, 2, 2), (JOIN, 0, 1)], 15, 0),
    ([(JOIN, 1, 1), (PART, 1, 1)] * 128 + [(PART, 1, 1), (JOIN, 2, 2)], 18, 256))

# Lists of another shape on sample A, as bytes.
MISSHAPEN = (
    ("", "empty list"), ("00", "cut order"), ("0000 0000 00", "cut order"),
    ("0000 0000 0000 00", "cut order"), ("0000 0000 0000 0000 0001", "cut order"),
    ("0000 0000 0001 00", "cut order after 15 or 18"),
    ("0002 0000 0000", "above 1, only order"),
    ("0100 0000 0000", "above 1, only order"),
    ("0002 0000 0000 0000 0000 0000", "above 1, first order"),
    ("0000 0000 0000 FFFF 0000 0000 0001 0000 0001", "above 1, middle order"),
    ("0000 0000 0000 0101 0000 0000", "above 1, last order"),
    ("0000 0000 0002 0002 0000 0000", "above 1 after 15 or 18"),
    ("0000 0000 0001 0000 0000 0000 8000 0000 0000", "above 1 after 15 or 18"))

# Lists on sample A with the bytes of the record that each order leaves, and in some
# rooms the number and place that come of these.
ROOMS = (
    ([(JOIN, 0, 0)], {0: (20, 0), 55: (20, 0), 56: (0, 0)}),                 # 56
    ([(JOIN, 0, 0), (JOIN, 1, 1)],                                           # 56 57
     {55: (20, 0), 56: (20, 1), 57: (0, 0)}),
    ([(JOIN, 0, 0), (JOIN, 1, 1), (PART, 0, 0)],                             # 56 57 56
     {55: (20, 0), 56: (20, 1), 57: (0, 0), 58: (0, 0)}),
    ([(JOIN, 0, 0), (JOIN, 1, 1), (JOIN, 0, 0)],                             # 56 57 18
     {55: (20, 0), 56: (20, 1), 57: (18, 2)}),
    ([(JOIN, 0, 0), (JOIN, 1, 1), (JOIN, 0, 2)], {56: (20, 1), 57: (15, 2)}),
    ([(JOIN, 0, 1)], {0: (18, 0)}), ([(JOIN, 2, 1)], {0: (15, 0)}))


def result(data, orders, room, name=A_VIEW, count=2):
    """The answer to a list in so much room: number, place, and what is written."""
    found = lent(outcome("pairs", [*name, count], [data, bytes_of(orders)]), room)
    assert found.length == len(found.written)
    return found.number, found.place, found.written


def with_index(data, at, old_size, block):
    """The record with the index block behind byte `at` exchanged, lengths too."""
    new = data[:at] + len(block).to_bytes(2, "big") + block + data[at + 2 + old_size:]
    return new[:8] + len(new).to_bytes(4, "big") + new[12:]


def by_hand(sample_a):
    """The lists that sample A accepts, and two on a second view with a segment."""
    for orders, block in BY_HAND:
        expected = with_index(sample_a, 50, 2, bytes.fromhex(block))
        assert result(sample_a, orders, PLENTY) == (0, 0, expected), orders
    for orders, block in (([(PART, 1, 1)], "01 60"), ([(JOIN, 0, 0)], "02 48 40"),
                          ([(PART, 1, 1), (JOIN, 0, 0)], "01 B0")):
        expected = with_index(base_bytes(), 72, 3, bytes.fromhex(block))
        found = result(base_bytes(), orders, PLENTY, BASE_VIEWS[1])
        assert found == (0, 0, expected), orders


def refused(sample_a):
    """The first order that is refused counts; 13, 14, 17 and 25 have no place."""
    for orders, number, place in REFUSED:
        assert result(sample_a, orders, PLENTY) == (number, place, b""), orders
    met = set()
    for text, fault in MISSHAPEN:
        for room in (0, PLENTY):
            found = outcome("pairs", [*A_VIEW, 2], [sample_a, bytes.fromhex(text)])
            assert lent(found, room) == found
            assert (found.number, found.place, found.fault) == (25, 0, fault), text
        met.add(fault)
        for data, numbers, number in ((sample_a, [2, 1, 2], 13),
                                      (sample_a, [0, 2, 2], 13),
                                      (sample_a, [*A_VIEW, 3], 14),
                                      (base_bytes(), [*BASE_VIEWS[0], 2], 14),
                                      (base_bytes(), [*BASE_VIEWS[0], 1], 17)):
            found = outcome("pairs", numbers, [data, bytes.fromhex(text)])
            assert (found.number, found.place) == (number, 0), found
    assert met == set(LIST_FAULTS)


def rooms(sample_a):
    """Every record in between needs room, but not the record that was lent."""
    for orders, answers in ROOMS:
        for room, (number, place) in answers.items():
            found = result(sample_a, orders, room)
            assert found[:2] == (number, place), (orders, room, found)
    wide = with_index(sample_a, 50, 2, bytes.fromhex("10 0000 0001 0001"))
    assert len(wide) == 61
    for room, number in ((55, 20), (56, 0)):
        assert result(wide, [(JOIN, 0, 0)], room)[0] == number


def at_the_limit():
    """P11's index grows by 3 bytes where 30 and 15 part, and by 4 where line 1 is
    joined with itself before; it has its old length when they are joined again."""
    up, down, own = (PART, 30, 15), (JOIN, 15, 30), (JOIN, 1, 1)
    for size, orders, number, place in (
            (32765, [up], 0, 0), (32766, [up], 19, 0), (32765, [up, down], 0, 0),
            (32766, [up, down], 19, 0), (32764, [own, up, down], 0, 0),
            (32765, [own, up, down], 19, 1), (32765, [own, up], 19, 1),
            (32768, [own, up], 19, 1), (32768, [own], 0, 0),
            (32768, [own, (JOIN, 2, 2)], 19, 1), (32768, [own, own, up], 18, 1),
            (32768, [own, (JOIN, 2, 2), (PART, 2, 2)], 19, 1),
            (32767, [own, (JOIN, 2, 2), (PART, 2, 2)], 0, 0)):
        lines = [Line(0, 0, 0, 0, [], 0, 0, 0, 0) for _ in range(31)]
        view = View(0, 2, 0, 80, 256, 256, lines,
                    Index(4, [[] for _ in range(30)] + [[15, 0]]))
        record = Record(0, 100, 8, 8, 4, 16, 64, 32, [view])
        assert len(build(record)) == 289
        data = build(fill(record, size))
        found = result(data, orders, 40000, name_of(view), 31)
        assert found[:2] == (number, place), (size, orders, found[:2])
        if orders == [up, down] and number == 0:
            assert found[2] == data
            assert result(data, orders, 32767, name_of(view), 31)[:2] == (20, 0)


def every_short_list(sample_a):
    """A list comes to what its orders come to singly, in every room of some."""
    named = list(product((JOIN, PART), range(3), range(3)))
    right = list(product((JOIN, PART), range(2), range(2)))
    for orders, sizes in ([([order], (0, 55, 56)) for order in named]
                          + [(pair, (55, 56, 57)) for pair in product(named, repeat=2)]
                          + [(three, (56, 57)) for three in product(right, repeat=3)]):
        for room in sizes:
            singly = given_singly(*A_VIEW, 2, sample_a, bytes_of(orders), room)
            assert result(sample_a, orders, room) == singly, (orders, room)


def last_word():
    """After many turns a pair is joined where it was turned an odd number of times."""
    lines = [Line(0, 0, 0, 0, [], 0, 0, 0, 0) for _ in range(40)]
    view = View(0, 2, 0, 80, 256, 256, lines, Index(16, [[] for _ in range(40)]))
    data = build(Record(0, 100, 8, 8, 4, 16, 64, 32, [view]))
    joined, orders = set(), []
    for turn in range(200):
        first, second = turn * turn % 37, 3 * turn % 40
        if turn % 3 > 0:
            _, second, first = orders[turn // 2]
        pair = (max(first, second), min(first, second))
        orders.append((PART if pair in joined else JOIN, first, second))
        joined ^= {pair}
    number, place, new = result(data, orders, 1000, name_of(view), 40)
    assert (number, place) == (0, 0)
    neighbours = judge(new).views[0].index.neighbours
    assert neighbours == [[lower for lower in range(line, -1, -1)
                           if (line, lower) in joined] for line in range(40)]


def lists_of_pairs(sample_a):
    """All of them."""
    by_hand(sample_a)
    refused(sample_a)
    rooms(sample_a)
    at_the_limit()
    every_short_list(sample_a)
    last_word()
