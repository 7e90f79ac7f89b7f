"""Names of views as assertions: which view a pair means, worked out by hand.

samples.py runs these. They show that finger position and view number name a view in
every call and no other two numbers do, that an order changes the named view alone and
no name, and that an accepted record has no name twice.
"""

from itertools import product

from answers import NAMING, ORDERS, outcome, with_name
from judge import judge
from model import Refusal
from names import name_of
from pores import bytes_of

# Five views of 50 bytes each from byte 24 on. The view at place p has sample A's lines
# twice, with the code p + 1, so that each trail is twice 16 + p + 1. Line 1 is next to
# line 0. The payload of local quality, from byte 60 + 50 p on, has one cell, A0 + p.
# The pores, e = 8, are one at the distance B0 + p in line 0, and none in line 1.
FIVE_VIEWS = bytes.fromhex(
    "46534B00 30313000 00000112 0000 05 C5 08 08 04 10 40 20 0000"
    "00 02 00 50 0001 0001 0010  5002850044C00E14 5002850044C00E14"
    "0002 0160  0012  0003 0008 010108 A0  0004 000A 00C8 08 00 B0 00"
    "00 07 00 50 0001 0001 0010  5002850048C00E14 5002850048C00E14"
    "0002 0160  0012  0003 0008 010108 A1  0004 000A 00C8 08 00 B1 00"
    "01 02 00 50 0001 0001 0010  500285004CC00E14 500285004CC00E14"
    "0002 0160  0012  0003 0008 010108 A2  0004 000A 00C8 08 00 B2 00"
    "00 00 00 50 0001 0001 0010  5002850050C00E14 5002850050C00E14"
    "0002 0160  0012  0003 0008 010108 A3  0004 000A 00C8 08 00 B3 00"
    "02 02 00 50 0001 0001 0010  5002850054C00E14 5002850054C00E14"
    "0002 0160  0012  0003 0008 010108 A4  0004 000A 00C8 08 00 B4 00")

# The place of the view that each name means.
PLACES = {(2, 0): 0, (7, 0): 1, (2, 1): 2, (0, 0): 3, (2, 2): 4}

# Names that mean none of the five.
NO_VIEW = (
    (2, 3), (7, 1), (0, 1),                             # the number one too high
    (1, 0), (1, 1), (3, 0), (6, 0), (8, 0), (10, 0),    # fingers that are not there
    (0, 2), (0, 7), (1, 2),                             # finger and number exchanged
    (0, 3), (2, 4),                                     # the place for the number
    (11, 0), (255, 0), (256, 0), (4294967295, 0), (11, 1), (255, 2), (256, 1),
    (2, 255), (7, 255), (0, 255), (2, 256), (7, 256), (0, 256), (2, 4294967295),
    (0, 4294967295), (255, 255), (256, 256), (4294967295, 4294967295),
    (258, 0), (258, 1), (258, 2), (263, 0),             # the finger + 256
    (2, 257), (2, 258), (258, 257), (263, 256),         # the number + 256, and both
    (1, 256), (1, 257), (1, 258), (6, 256),             # 256 * finger + number fits
    (65538, 1), (65543, 0), (2, 65537), (7, 65536), (0, 65536),
    (2147483650, 2), (2147483648, 0), (2, 2147483650), (0, 2147483648))

# For each call what goes with a name: arguments that are right for each of the five
# views, and others that would be refused otherwise. No card has these views' widths.
RIGHT = {"trail": ([0], []), "segment": ([0], []), "quality": ([0], []),
         "set_quality": ([0], [b"\1\1\x08\x55"]), "remove": ([2], [b"\0\0"]),
         "join": ([2, 0, 0], []), "part": ([2, 1, 0], []), "pairs": ([2], [bytes(6)]),
         "pores": ([1], []), "set_pores": ([1], [bytes_of([200, 8, 0, 1, 9])]),
         "card_write": ([0], [])}
OTHERS = {"trail": ([2], []), "segment": ([2], []), "quality": ([9], []),
          "set_quality": ([0], [b""]), "remove": ([9], [b""]), "join": ([1, 0, 0], []),
          "part": ([2, 0, 2], []), "pairs": ([2], [b"\0"]), "pores": ([2], []),
          "set_pores": ([1], [b"\0"]), "card_write": ([1], [])}
# The segment that a rewriting changes.
REWRITTEN = {"set_quality": 0, "set_pores": 1}


def call_on(call, name, data, arguments):
    """The outcome of a call on the view that has the name."""
    numbers, slices = arguments[call]
    return outcome(call, with_name(call, name, numbers), [data] + slices)


def place_meant(data, name):
    """The place in FIVE_VIEWS of the view that a name means: the view's trail and its
    local quality tell the same."""
    trail = call_on("trail", name, data, RIGHT)
    quality = call_on("quality", name, data, RIGHT)
    assert (trail.number, trail.length) == (0, 1), (name, trail)
    assert (quality.number, quality.length) == (0, 4), (name, quality)
    place = quality.written[3] - 0xA0
    assert trail.written == bytes([0, 34 + 2 * place])
    return place


def has_pores(data, name, *numbers):
    """Whether the named view has these pores."""
    return call_on("pores", name, data, RIGHT).written == bytes_of(numbers)


def five_views():
    """Each name means its place, in every call, and an order changes nothing else."""
    before = judge(FIVE_VIEWS).views
    assert [name_of(view) for view in before] == list(PLACES)
    for name, place in PLACES.items():
        assert place_meant(FIVE_VIEWS, name) == place
        assert has_pores(FIVE_VIEWS, name, 200, 8, 1, 0xB0 + place, 0)
        found = call_on("segment", name, FIVE_VIEWS, RIGHT)
        assert (found.number, found.place, found.length) == (0, 480 + 400 * place, 4)
        for call in ORDERS:
            found = call_on(call, name, FIVE_VIEWS, RIGHT)
            assert found.number == 0, (call, name, found)
            after = judge(found.written).views
            assert [name_of(view) for view in after] == list(PLACES)
            changed = [at for at in range(5) if (after[at].lines, after[at].index) != (
                before[at].lines, before[at].index)]
            if call in REWRITTEN:
                segment = REWRITTEN[call]
                changed = [at for at in range(5) if after[at].segments[segment].payload
                           != before[at].segments[segment].payload]
            assert changed == [place], (call, name, changed)


def no_view():
    """13 comes before all that is told of the view and of the other arguments."""
    for name in NO_VIEW:
        for call in NAMING:
            for arguments in (RIGHT, OTHERS):
                found = call_on(call, name, FIVE_VIEWS, arguments)
                assert (found.number, found.place) == (13, 0), (call, name, found)
                assert (found.length, found.written) == (0, b"")
    for call, number in (("trail", 15), ("segment", 23), ("quality", 23),
                         ("set_quality", 24), ("remove", 14), ("join", 14),
                         ("part", 15), ("pairs", 25), ("pores", 23),
                         ("set_pores", 26), ("card_write", 28)):
        for name in PLACES:
            assert call_on(call, name, FIVE_VIEWS, OTHERS).number == number, call


def removed_from_five():
    """Removing line 0 of (2, 1) takes 8 bytes from the third view's skeleton, bytes 134
    to 149, and two from its pores, bytes 168 to 173. Its index, 01 60, becomes 01 00.
    The names mean the same places; the same removal again is 14, and on (2, 2) it
    leaves (2, 1) alone."""
    left = bytes.fromhex("0004 0008 00C8 08 00")
    removed = call_on("remove", (2, 1), FIVE_VIEWS, RIGHT).written
    assert removed == (FIVE_VIEWS[:11] + b"\x08" + FIVE_VIEWS[12:132] + b"\0\x08"
                       + FIVE_VIEWS[142:150] + b"\0\2\1\0\0\x10" + FIVE_VIEWS[156:164]
                       + left + FIVE_VIEWS[174:])
    for name, place in PLACES.items():
        assert place_meant(removed, name) == place
        pores = [0] if name == (2, 1) else [1, 0xB0 + place, 0]
        assert has_pores(removed, name, 200, 8, *pores)
    bits = {(2, 0): 480, (7, 0): 880, (2, 1): 1216, (0, 0): 1600, (2, 2): 2000}
    for name, bit in bits.items():
        assert call_on("segment", name, removed, RIGHT).place == bit
    for name in NO_VIEW:
        assert call_on("remove", name, removed, RIGHT).number == 13
    assert call_on("remove", (2, 1), removed, RIGHT).number == 14
    assert outcome("remove", [2, 1, 1], [removed, b"\0\0"]).number == 0
    both = call_on("remove", (2, 2), removed, RIGHT).written
    assert both == removed[:10] + b"\0\xFE" + removed[12:222] + b"\0\x08" + (
        removed[232:240] + b"\0\2\1\0\0\x10" + removed[246:254] + left)


def renamed(names, value=0xA0):
    """As many views of FIVE_VIEWS' make, with these names; the lone cell of each has
    a value that counts up."""
    size = 24 + 50 * len(names)
    views = [bytes([number, finger]) + FIVE_VIEWS[26:63] + bytes([value + place])
             + FIVE_VIEWS[64:74] for place, (finger, number) in enumerate(names)]
    return (FIVE_VIEWS[:8] + size.to_bytes(4, "big") + b"\0\0" + bytes([len(names)])
            + FIVE_VIEWS[15:24] + b"".join(views))


def meant_of(data, names, places):
    """Whether each of the names means the view at its place, or none where that is
    None."""
    for name, place in zip(names, places):
        found = call_on("segment", name, data, RIGHT)
        if place is None:
            assert found.number == 13, (name, found)
            continue
        assert (found.number, found.place) == (0, 480 + 400 * place), (name, found)
        values = call_on("quality", name, data, RIGHT).written
        assert values[3] == data[63 + 50 * place], name


def exchanged():
    """Where both (0, 1) and (1, 0) are there, each means its own view."""
    data = renamed([(1, 0), (0, 0), (0, 1)])
    assert len(data) == 174
    meant_of(data, [(1, 0), (0, 0), (0, 1), (1, 1), (0, 2), (2, 0)],
             [0, 1, 2, None, None, None])


def many_views():
    """255 views of one finger, and 255 of all eleven in turn: there (f, n) means the
    place 11 n + f, so that two fingers have 24 views and the others 23."""
    numbers = list(range(300)) + [4294967295]
    one = renamed([(4, number) for number in range(255)], 0)
    meant_of(one, [(4, number) for number in numbers],
             [number if number < 255 else None for number in numbers])
    meant_of(one, [(3, 0), (5, 0), (0, 4), (3, 256), (260, 0)], [None] * 5)
    eleven = renamed([(place % 11, place // 11) for place in range(255)], 0)
    names = list(product(range(14), range(26)))
    meant_of(eleven, names, [11 * number + finger
                             if finger < 11 and 11 * number + finger < 255 else None
                             for finger, number in names])


def never_twice():
    """Of all ways to name three views of two fingers, eight are accepted: for each row
    of fingers the one that counts up. None of these has a name twice."""
    rows = []
    for names in product(product((0, 7), range(3)), repeat=3):
        try:
            judge(renamed(names))
        except Refusal as refusal:
            assert refusal.number == 7
            continue
        assert len(set(names)) == 3
        rows.append([finger for finger, _ in names])
    assert sorted(rows) == [list(row) for row in product((0, 7), repeat=3)]


def names_of_views(sample_a):
    """All of them; sample A's view is (2, 0) alone."""
    for name, number in (((2, 0), 0), ((0, 0), 13), ((0, 2), 13), ((2, 1), 13)):
        for call in ("trail", "remove", "join"):
            assert call_on(call, name, sample_a, RIGHT).number == number
    five_views()
    no_view()
    removed_from_five()
    exchanged()
    many_views()
    never_twice()
