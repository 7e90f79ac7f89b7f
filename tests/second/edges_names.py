"""Names of views at the edges, listed one by one and not left to chance.

One record has several views of one finger between those of others. One has with every
name the exchanged one too. Two have 255 views: of one finger, and of all eleven. No two
views of a record are alike, and every call can be accepted on each of them. What comes
of a name is not assumed here; names.py decides.
"""

from dataclasses import dataclass, replace
from functools import lru_cache

from build import build
from card import SETS
from make_names import names_near
from model import (MOST_VIEWS, PORES_TYPE, QUALITY_TYPE, Index, Line, Record, Segment,
                   View)
from names import POSITIONS, find_view, name_of
from pores import Pores, to_payload

# The finger positions of the views of each record, in their order.
FIVE = (2, 7, 2, 0, 2)
CROSSED = (1, 0, 2, 2, 0, 1, 0, 2, 1)
ONE_FINGER = (6,) * MOST_VIEWS
ALL_FINGERS = tuple(place * place // 10 % len(POSITIONS) for place in range(MOST_VIEWS))


@dataclass
class NameEdge:
    """A record's bytes, a name, and the view that it means or is made from."""

    data: bytes
    name: tuple
    view: View


def telling_line(place, at):
    """A line whose trail tells the place of its view, and its own place there."""
    return Line(1, at, 0, 1, [place - 127, at], 2, 5, 1, 0)


def telling_view(place, position, number):
    """A view that is like none at another place: three to five lines, each next to the
    one before, a segment of local quality with three cells, and one of pores."""
    lines = [telling_line(place, at) for at in range(3 + place % 3)]
    neighbours = [[]] + [[at] for at in range(len(lines) - 1)]
    pores = Pores(place, 4, [[1 + (place + at) % 14] for at in range(len(lines))])
    segments = [Segment(QUALITY_TYPE, bytes([1, 1, 8, place, 7, 255 - place])),
                Segment(PORES_TYPE, to_payload(pores))]
    return View(number, position, 0, 80, 3, 1, lines, Index(1 + place % 4, neighbours),
                segments)


def names_record(positions, size=None):
    """A record with a view for each position; those of one finger count up. It can have
    a card's size; then its lines tell their places by where they start."""
    views = [telling_view(place, position, positions[:place].count(position))
             for place, position in enumerate(positions)]
    if size is None:
        return Record(0, 197, 2, 4, 8, 16, 64, 255, views)
    for place, view in enumerate(views):
        view.lines = [replace(line, start_x=place, start_y=at, codes=[at])
                      for at, line in enumerate(view.lines)]
    return Record(0, *SETS[size], views)


def last_of_fingers(record):
    """Each finger's last view."""
    return list({view.position: view for view in record.views}.values())


def own_names(record, views):
    """The names of these views."""
    data = build(record)
    return [NameEdge(data, name_of(view), view) for view in views]


def near_names(record, views):
    """The names near those of these views; some mean another view."""
    data = build(record)
    return [NameEdge(data, name, find_view(record, *name) or view)
            for view in views for name in names_near(record, view)]


@lru_cache(maxsize=None)
def name_edges(size=None):
    """All of them, or all for cards of a size; those that no shorter list may leave out
    come first."""
    five, crossed, one, eleven = [names_record(positions, size) for positions in (
        FIVE, CROSSED, ONE_FINGER, ALL_FINGERS)]
    some_of_one = [one.views[place] for place in (0, 1, 127, 128, 253, 254)]
    some_of_eleven = eleven.views[:1] + last_of_fingers(eleven)
    first = (own_names(five, five.views) + own_names(crossed, crossed.views)
             + own_names(one, some_of_one) + own_names(eleven, some_of_eleven)
             + near_names(five, [five.views[2], five.views[4]])
             + near_names(one, one.views[-1:]))
    return first, (near_names(five, five.views) + near_names(crossed, crossed.views)
                   + near_names(one, some_of_one) + near_names(eleven, some_of_eleven))
