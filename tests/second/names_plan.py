"""Plans the cases that show which view a name means.

Each call that names a view gets the names at the edges, with arguments that are right
for the view that is meant, or else for the one that the name is made from. An order is
also given to all views of a record in turn, each to the record that the one before
left: two orders for each view, the first of them once more in between.
"""

from answers import ORDERS
from build import build
from edges import small_records
from edges_names import CROSSED, FIVE, name_edges, names_record
from lend import lend, lend_enough
from make_pores import with_numbers
from names import find_view, name_of, views_of
from pairs import JOIN, PART, bytes_of
from pores import read
from quality_plan import some
from results import judged


def right_pairs(index):
    """A line that is not next to itself, as a pair to join, and a pair to part."""
    own = [line for line, listed in enumerate(index.neighbours) if line not in listed]
    joined = [(line, lower) for line, listed in enumerate(index.neighbours)
              for lower in listed]
    return (own[0], own[0]), joined[-1]


def right_arguments(call, view):
    """The numbers behind the name and the slices behind the record with which the call
    is accepted on a view of edges_names.py."""
    count = len(view.lines)
    if call == "trail":
        return [count - 1], []
    if call in ("segment", "quality"):
        return [0], []
    if call == "set_quality":
        values = view.segments[0].payload
        return [0], [values[:4] + bytes([values[4] ^ 1]) + values[5:]]
    if call == "pores":
        return [1], []
    if call == "set_pores":
        pores = read(view, view.segments[1])
        return [1], [with_numbers(pores, 0, pores.resolution ^ 1)]
    if call == "remove":
        return [count], [bytes([0, 1])]
    to_join, to_part = right_pairs(view.index)
    if call == "pairs":
        return [count], [bytes_of([(JOIN, *to_join), (PART, *to_part)])]
    return [count, *(to_join if call == "join" else to_part)], []


def named_case(rng, call, name, view, data):
    """A call on the view that has the name, or on none, with a view's arguments."""
    numbers, slices = right_arguments(call, view)
    return lend_enough(rng, call, [*name, *numbers], [data] + slices)


def named_sequence(rng, call, record):
    """On each view of a record in turn an order that is accepted, the same once more
    (only a rewriting is accepted twice so), and another that is accepted."""
    data = build(record)
    for finger, number in sorted(name_of(view) for view in record.views):
        for again in (True, False):
            view = find_view(judged(data), finger, number)
            case = named_case(rng, call, (finger, number), view, data)
            data = case.expected.written
            yield case
            if again:
                yield lend(rng, call, case.numbers, [data] + case.slices[1:])


def name_cases(rng, call, most):
    """Names at the edges: the first ones, and as many of the others as there may be.
    Of an order also its sequences."""
    first, others = name_edges()
    for edge in first + some(rng, others, most):
        yield named_case(rng, call, edge.name, edge.view, edge.data)
    if call in ORDERS:
        for positions in (FIVE, CROSSED):
            yield from named_sequence(rng, call, names_record(positions))


def small_names():
    """The small records, each with the names of its views, and one too high."""
    for data in small_records():
        record = judged(data)
        finger = record.views[-1].position
        for view in record.views:
            yield data, name_of(view)
        yield data, (finger, views_of(record, finger))
