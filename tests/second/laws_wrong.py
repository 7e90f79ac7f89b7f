"""Orders that are wrong on purpose, to show what each law's check catches.

Each is a plain mistake in one function, put in its place while some trials run. One law
is broken by it and the three others hold, so that none of the four checks is idle and
none can be left out.
"""

from dataclasses import dataclass, replace
from unittest.mock import patch

import orders
import pores
from model import PORES_TYPE, Index, least_width
from names import named_view

REMOVE = orders.remove


@dataclass
class Wrong:
    """The law that is broken, the mistake, and the function of `orders` that has it."""

    law: int
    mistake: str
    name: str
    function: object

    def in_place(self):
        """A context in which the wrong function stands for the right one."""
        return patch.object(orders, self.name, self.function)


def measured_too_early(record, finger, number, count, list_bytes):
    """A removal that takes the least width of the lists as they were before it, where
    that does for those that it leaves."""
    left = REMOVE(record, finger, number, count, list_bytes)
    index = named_view(record, finger, number).index
    if index is None:
        return left
    new = named_view(left, finger, number)
    width = max(least_width(index.neighbours), new.index.w)
    return orders.with_view(left, replace(new, index=replace(new.index, w=width)))


def dropped_one_by_one(view, removed):
    """Pores dropped line by line, while the numbers of the next ones have moved up."""
    segments = []
    for segment in view.segments:
        if segment.type == PORES_TYPE:
            found = pores.read(view, segment)
            lines = list(found.lines)
            for line in sorted(removed):
                del lines[min(line, len(lines) - 1)]
            payload = pores.to_payload(replace(found, lines=lines))
            segment = replace(segment, payload=payload)
        segments.append(segment)
    return segments


def one_width(record, finger, number, count, list_bytes):
    """A removal that writes all indexes of the record with the edited view's w, where
    that does for them."""
    left = REMOVE(record, finger, number, count, list_bytes)
    index = named_view(left, finger, number).index
    if index is None:
        return left
    return replace(left, views=[
        view if view.index is None else replace(view, index=replace(
            view.index, w=max(index.w, least_width(view.index.neighbours))))
        for view in left.views])


def never_narrower(record, view, line, listed):
    """A join or part that keeps w where it does."""
    neighbours = list(view.index.neighbours)
    neighbours[line] = listed
    index = Index(max(view.index.w, least_width(neighbours)), neighbours)
    return orders.with_view(record, replace(view, index=index))


def resolution_of_header(record, finger, number, count, list_bytes):
    """A removal that writes the header's points per cm as the resolution of pores."""
    left = REMOVE(record, finger, number, count, list_bytes)
    view = named_view(left, finger, number)
    points = record.points.to_bytes(2, "big")
    segments = [replace(segment, payload=points + segment.payload[2:])
                if segment.type == PORES_TYPE else segment for segment in view.segments]
    return orders.with_view(left, replace(view, segments=segments))


WRONG = (
    Wrong(1, "w is measured before lines are removed", "remove", measured_too_early),
    Wrong(1, "pores are dropped by numbers that moved", "left_by_removal",
          dropped_one_by_one),
    Wrong(2, "w is the same in all views", "remove", one_width),
    Wrong(3, "w never becomes narrower", "with_list", never_narrower),
    Wrong(4, "pores get the header's points per cm", "remove", resolution_of_header))
