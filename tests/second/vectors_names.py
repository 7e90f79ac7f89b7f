"""The records of crates/vectors that show names of views, from plain values.

The views of one finger stand between those of others, so that a view's place, its
number and its finger all differ, and no two views of a record have the same trails or
segments. What a program prints of them tells which view each name meant.
"""

from build import build
from model import QUALITY_TYPE, Index, Segment
from vectors_records import FINGERS, sample_line, sample_record, sample_view


def told_view(place, name, number):
    """A view whose lines turn by its place, which its local quality has too. A second
    segment of that type is as long and is broken, which hinders no removal."""
    view = sample_view(name, number)
    view.width, view.height = 2, 1
    view.lines = [sample_line([place + 1]), sample_line([-place, place])]
    view.index = Index(1, [[], [0]])
    view.segments = [Segment(QUALITY_TYPE, bytes([1, 1, 8, place, 255 - place])),
                     Segment(QUALITY_TYPE, bytes(place))]
    return view


def fingers_record():
    """Nine views of five fingers: right index four times, unknown twice."""
    names = ("right index", "left index", "right index", "unknown", "right index",
             "left little", "unknown", "right thumb", "right index")
    views = [told_view(place, name, names[:place].count(name))
             for place, name in enumerate(names)]
    return sample_record(views, k=8)


def views_record():
    """33 views, three of each finger; the fingers come in three different orders. Each
    has one line, which starts at another direction."""
    rows = ((3, 7), (5, 2), (10, 6))
    positions = [(step * turn + start) % len(FINGERS) for step, start in rows
                 for turn in range(len(FINGERS))]
    views = []
    for place, position in enumerate(positions):
        view = sample_view(FINGERS[position], place // len(FINGERS))
        view.lines = [sample_line([1], 4 * place)]
        views.append(view)
    return sample_record(views)


def name_samples():
    """The samples whose views are told apart by their names, by name."""
    return {"fingers": build(fingers_record()), "views-33": build(views_record())}
