"""Trials of the four laws without end, from a seeded source of chance.

The first of a law are at the edges: w widens or narrows on purpose, and records come to
32,768 bytes or just past them. Then the kinds of orders, of lists and of places take
turns, on records at random.
"""

from dataclasses import replace
from functools import partial
from itertools import count as counted

from build import build
from laws_check import (any_second_list, same_view, there_and_back, two_removals,
                        two_views)
from laws_make import (add_law_view, fitting_order, growing_with_pores, growth,
                       law_record, set_pair, widening)
from laws_trial import KINDS, PLACES, removal
from make import fill, random_header, random_positions
from model import LARGEST_RECORD, QUALITY_TYPE, least_width
from names import POSITIONS, name_of
from orders_plan import list_bytes

# The bits with which make.growing has 255 lines, so that an index that widens grows by
# more bytes than a few lines have.
MANY_BITS = 7
# The calls of law 3, either one first.
CALLS = (("join", "part"), ("part", "join"))


def with_edges(rng, edge, edges, at_random):
    """So many edges, then trials at random without end, with an edge now and then."""
    yield from (edge(rng, turn) for turn in range(edges))
    for turn in counted():
        yield at_random(rng, turn)
        if turn % 50 == 49:
            yield edge(rng, turn // 50)


# ---- law 1 ----

def widths_by_removals(rng):
    """A or B has the line whose removal widens w, or the last one, whose removal
    narrows it; the last time they have all lines."""
    record, middle = growing_with_pores(rng, 3)
    data, name, last = build(record), name_of(record.views[0]), 2 * middle
    others = [line for line in range(last + 1) if line != middle]
    for first, second in (([middle], [last]), ([middle], [0]), ([last], [middle]),
                          ([1], [middle]), ([0, middle], [1, last]),
                          ([middle + 1, last - 1], [2, middle]), ([middle], others)):
        yield two_removals(data, name, first, second)


def filling_removals(rng, turn):
    """B widens w, to 32,768 bytes or to a byte more; what fills the record stands in
    another view, or is carried as local quality."""
    record, middle = growing_with_pores(rng, MANY_BITS)
    view = record.views[0]
    first = [rng.choice((1, middle - 1, middle + 1, 2 * middle - 1))]
    both = removal(name_of(view), len(view.lines), sorted(first + [middle]))
    size = LARGEST_RECORD + turn % 2 - growth(both, build(record))
    filled, type_ = ((record.views[1], 0x0123), (view, QUALITY_TYPE))[turn // 2 % 2]
    data = build(fill(record, size, filled, type_))
    return two_removals(data, name_of(view), first, [middle])


def random_removals(rng, turn):
    """Some lines, or all of them, as A and B: A is the lower ones, the upper ones, or
    any of them; or A, and any list for the lines that are left. Some of the views have
    the line whose removal widens w."""
    record, gone = law_record(rng, rng.randint(1, 3)), []
    view = max(rng.sample(record.views, 1 + turn % len(record.views)),
               key=lambda each: len(each.lines))
    if turn % 6 == 1:
        view.index = None
    if turn % 5 == 4:
        record, middle = growing_with_pores(rng, rng.randint(2, 4))
        view, gone = record.views[0], [middle]
    data, name, lines = build(record), name_of(view), len(view.lines)
    most = max(2, lines // 2)
    gone = sorted({*gone, *rng.sample(range(lines), rng.randint(2, most))})
    if turn % 7 == 3:
        gone = list(range(lines))
    cut = rng.randrange(1, len(gone))
    if turn % 4 == 0:
        first = sorted(rng.sample(range(lines), rng.randrange(1, lines)))
        return any_second_list(data, name, first, list_bytes(rng, lines - len(first)))
    if turn % 4 == 1:
        return two_removals(data, name, gone[:cut], gone[cut:])
    if turn % 4 == 2:
        return two_removals(data, name, gone[cut:], gone[:cut])
    first = sorted(rng.sample(gone, cut))
    return two_removals(data, name, first,
                        [line for line in gone if line not in first])


def removals(rng):
    """Law 1."""
    yield from widths_by_removals(rng)
    yield from with_edges(rng, filling_removals, 4, random_removals)


# ---- law 2 ----

def filling_views(rng, turn):
    """Two orders that widen w, of one finger and of two. Both together come to 32,768
    bytes, or one alone does, so that the second is refused: 19. Of a list that leads
    back that is so one way alone."""
    record, middle = growing_with_pores(rng, MANY_BITS)
    finger, number = ((3, 2), (8, 0))[turn % 2]
    record.views.append(replace(record.views[0], position=finger, number=number))
    calls = (("remove", "join"), ("part", "remove"), ("join", "part"),
             ("remove", "remove"), ("remove", "pairs"), ("pairs", "part"))[turn % 6]
    orders = [widening(call, view, middle)
              for call, view in zip(calls, record.views[::2])]
    more = [growth(order, build(record)) for order in orders]
    size = LARGEST_RECORD - (sum(more) if turn % 6 < 2 else max(more))
    return two_views(build(fill(record, size, record.views[1])), *orders)


def random_views(rng, turn):
    """Orders of every two kinds on two views of one finger or of two, which may stand
    between others."""
    finger, other = rng.sample(POSITIONS, 2)
    marked = [(finger, True), (finger if turn % 3 == 0 else other, True)]
    others = random_positions(rng, rng.randint(0, 3))
    marked += [(position, False) for position in others]
    rng.shuffle(marked)
    record, edited = random_header(rng), []
    for position, is_edited in marked:
        view = add_law_view(rng, record, position)
        if is_edited:
            edited.append(view)
    orders = [fitting_order(rng, call, view) for call, view in
              zip((KINDS[turn % 4], KINDS[turn // 4 % 4]), edited)]
    rng.shuffle(orders)
    return two_views(build(record), *orders)


def views(rng):
    """Law 2."""
    yield from with_edges(rng, filling_views, 6, random_views)


# ---- law 3 ----

def filling_undoings(rng, turn):
    """The first order widens w up to 32,768 bytes; or up to a byte more, and then the
    law says nothing."""
    record, middle = growing_with_pores(rng, MANY_BITS)
    calls = CALLS[turn % 2]
    order = widening(calls[0], record.views[0], middle)
    size = LARGEST_RECORD + (turn % 3 == 2) - growth(order, build(record))
    data = build(fill(record, size, record.views[1]))
    return there_and_back(data, order.name, calls, [order.numbers[1:]] * 2)


def random_undoings(rng, turn):
    """A join or a part, of a line with itself or of two, at the least width or at a
    wider one."""
    record = law_record(rng, rng.randint(1, 3))
    view = rng.choice(record.views)
    calls = CALLS[turn % 2]
    pair = rng.sample(range(len(view.lines)), 2)
    if turn // 2 % 2 == 0:
        pair = pair[:1] * 2
    set_pair(rng, view, pair, calls[0] == "part")
    least = least_width(view.index.neighbours)
    view.index.w = least if turn // 4 % 2 == 0 else rng.randint(least + 1, 16)
    back = pair if rng.random() < 0.5 else pair[::-1]
    return there_and_back(build(record), name_of(view), calls, [pair, back])


def undoings(rng):
    """Law 3."""
    yield from with_edges(rng, filling_undoings, 3, random_undoings)


# ---- law 4 ----

def around(rng, widths, view, place):
    """A record that has these widths and this view at this place, and all else its own:
    as many views of the finger before as the view's number tells, others of any finger
    before and behind."""
    record = replace(random_header(rng), c=widths.c, b=widths.b, k=widths.k)
    before = [view.position] * view.number
    others = [position for position in POSITIONS if position != view.position]
    if place != PLACES[0]:
        before += rng.choices(others, k=rng.randint(1, 3))
    rng.shuffle(before)
    for position in before:
        add_law_view(rng, record, position)
    record.views.append(view)
    if place != PLACES[2]:
        for position in rng.choices([view.position, *others], k=rng.randint(1, 3)):
            add_law_view(rng, record, position)
    return record


def random_places(rng, turn):
    """Orders of every kind on a view at every two places; now and then one record comes
    to 32,768 bytes."""
    call, first, second = KINDS[turn % 4], PLACES[turn % 3], PLACES[turn // 3 % 3]
    widths = random_header(rng)
    view = add_law_view(rng, widths, rng.choice(POSITIONS))
    if PLACES[0] not in (first, second):
        view.number = rng.randrange(3)
    order = fitting_order(rng, call, view)
    one, other = [around(rng, widths, view, place) for place in (first, second)]
    while any(getattr(one, what) == getattr(other, what) for what in
              ("device", "points", "straight", "perpendicular", "half_turn")):
        other = replace(random_header(rng), c=widths.c, b=widths.b, k=widths.k,
                        views=other.views)
    if turn % 5 == 3:
        another = [each for each in other.views if each is not view][0]
        size = LARGEST_RECORD - growth(order, build(other))
        fill(other, min(size, LARGEST_RECORD), another)
    return same_view(build(one), build(other), order)


def places(rng):
    """Law 4."""
    return map(partial(random_places, rng), counted())


# For each law its trials, without end.
TRIALS = {1: removals, 2: views, 3: undoings, 4: places}
