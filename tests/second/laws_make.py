"""Makes records for the laws of request [8], and orders that are accepted on them.

The records have several views, of one finger and of others, with an index or without
one, with local quality, right or not, and with right pores. Where an order needs an
index, or two lines that are neighbours or are not, the view gets them. Other orders
widen w in a view that is made for it, so that a record grows.
"""

import make_pairs
import make_pores
import make_quality
from answers import outcome
from laws_trial import list_order, longest, pair_order, removal
from make import (add_view, growing, random_header, random_index, random_positions,
                  random_style)
from model import PORES_TYPE, QUALITY_TYPE, Index, Segment, least_width
from names import name_of
from orders_plan import right_list
from pairs import JOIN, PART

# The segments that a view has, by their types.
ROWS = ((), (QUALITY_TYPE,), (PORES_TYPE,), (QUALITY_TYPE, PORES_TYPE),
        (PORES_TYPE, QUALITY_TYPE, PORES_TYPE))


def segments_for(rng, view):
    """Segments for a view: local quality, right or not, and right pores."""
    return [Segment(type_, make_pores.random_payload(rng, len(view.lines), 1.0)
                    if type_ == PORES_TYPE else make_quality.random_payload(rng, view))
            for type_ in rng.choice(ROWS)]


def add_law_view(rng, record, position):
    """Adds a view with two lines or more, mostly with an index and with segments."""
    lines = rng.randint(2, rng.choice((2, 4, 8, 16, 24)))
    view = add_view(rng, record, position, lines, rng.randint(0, 4), random_style(rng),
                    0.0)
    view.segments = segments_for(rng, view)
    return view


def law_record(rng, views):
    """A record with so many views, of a few fingers or of many."""
    record = random_header(rng)
    for position in random_positions(rng, views):
        add_law_view(rng, record, position)
    return record


def set_pair(rng, view, pair, joined):
    """Gives the view an index in which the two lines are neighbours, or are not."""
    while view.index is None:
        view.index = random_index(rng, len(view.lines))
    neighbours = [list(listed) for listed in view.index.neighbours]
    others = set(neighbours[max(pair)]) - {min(pair)}
    neighbours[max(pair)] = sorted(others | ({min(pair)} if joined else set()),
                                   reverse=True)
    view.index = Index(max(view.index.w, least_width(neighbours)), neighbours)


def fitting_order(rng, call, view):
    """An order that the view accepts, but for the record's length; the view gets the
    index that it needs."""
    name, lines = name_of(view), len(view.lines)
    if call == "remove":
        return removal(name, lines, right_list(rng, lines))
    pair = rng.randrange(lines), rng.randrange(lines)
    set_pair(rng, view, pair, call == "part")
    if call == "pairs":
        length = rng.choice((1, 2, 3, 6))
        return list_order(name, lines,
                          make_pairs.right_list(rng, view.index, lines, length))
    return pair_order(call, name, lines, pair)


def widening(call, view, middle):
    """An order that widens w in a view of make.growing; a list brings it back again."""
    name, lines = name_of(view), len(view.lines)
    last = lines - 1
    if call == "remove":
        return removal(name, lines, [middle])
    if call == "pairs":
        return list_order(name, lines, [(PART, last, middle), (JOIN, middle, last)])
    return pair_order(call, name, lines,
                      (last - 1, 0) if call == "join" else (last, middle))


def growth(order, data):
    """By how many bytes an order makes a record longer, at its end or in between."""
    found = outcome(order.call, [*order.name, *order.numbers], [data, *order.slices])
    return longest(found) - len(data)


def growing_with_pores(rng, bits):
    """A record of make.growing whose first view has pores, and the middle line."""
    record, middle = growing(rng, bits)
    payload = make_pores.random_payload(rng, len(record.views[0].lines), 1.0)
    record.views[0].segments = [Segment(PORES_TYPE, payload)]
    return record, middle
