"""Plans the cases of lists of pairs.

First come lists at the edges. Then come lists at random on records at random, right
or not, and on views that have lines and an index for sure; sequences of orders with
lists among them; lists on very long records; and lists whose records come to 32,768
bytes or pass them at some order. Of the short ones some are also given singly here,
order by order through the bytes.
"""

from answers import given_singly, outcome
from build import build
from edges_pairs import list_edges, risen
from lend import lend
from make import fill, growing, random_record
from make_pairs import list_length, right_list, with_wrong_order
from model import LARGEST_RECORD
from names import name_of
from orders_plan import order_case, sequence
from pairs import bytes_of
from quality_plan import some

# What a record and a list may have at most to be given singly here too.
MOST_BYTES, MOST_LIST = 400, 60


def as_given_singly(case):
    """The case; where it is short, its orders given singly come to the same."""
    record, listed = case.slices
    expected = case.expected
    if (len(record) <= MOST_BYTES and len(listed) <= MOST_LIST
            and expected.number in (0, 15, 18, 19, 20)):
        found = given_singly(*case.numbers, record, listed, case.out_size)
        assert found == (expected.number, expected.place, expected.written), case
    return case


def list_edge_cases(rng, most):
    """Lists at the edges: the first ones, and as many of the others as there may be."""
    first, others = list_edges()
    edges = first + some(rng, others, max(0, most - len(first)))
    for turn, edge in enumerate(edges):
        case = lend(rng, "pairs", [*edge.name, edge.count], [edge.data, edge.listed],
                    edge.room)
        yield as_given_singly(case) if turn % 4 == 0 else case


def indexed_record(rng):
    """A record that has a view with lines and an index, and that view."""
    if rng.random() < 0.5:
        record, _ = growing(rng, rng.choice((2, 3, 3, 4, 4, 5, 5, 6, 7, 8)))
        return record, record.views[0]
    while True:
        record = random_record(rng, rng.choice(("small", "middle", "fingers")), 0.3)
        fitting = [view for view in record.views
                   if view.lines and view.index is not None]
        if fitting:
            return record, rng.choice(fitting)


def indexed_cases(rng, number):
    """Some lists, mostly right ones, on one view with lines and an index."""
    record, view = indexed_record(rng)
    data, count = build(record), len(view.lines)
    for _ in range(number):
        orders = right_list(rng, view.index, count, list_length(rng))
        if rng.random() < 0.25:
            orders = with_wrong_order(rng, orders, count)
        yield lend(rng, "pairs", [*name_of(view), count], [data, bytes_of(orders)])


def filled_case(rng):
    """A list of which some record comes to 32,768 bytes, or just past them: 19."""
    record, view = indexed_record(rng)
    data, numbers = build(record), [*name_of(view), len(view.lines)]
    orders = right_list(rng, view.index, len(view.lines), list_length(rng))
    listed = bytes_of(orders)
    lengths = outcome("pairs", numbers, [data, listed]).walk.lengths
    rises = risen(lengths, len(data))
    if rises:
        at, before = rng.choice((rises[0], rises[-1], rng.choice(rises)))
        length = rng.choice((before, lengths[at] - 1, lengths[at]))
        size = LARGEST_RECORD - length + len(data)
        data = build(fill(record, size, rng.choice((view, record.views[-1]))))
    room = rng.choice((LARGEST_RECORD - 1, LARGEST_RECORD, LARGEST_RECORD, 40000))
    return lend(rng, "pairs", numbers, [data, listed], room if rises else None)


def pairs_stream(rng, calls, source, long_records):
    """An endless stream: single lists, sequences, filled records, long ones."""
    turn = 0
    while True:
        turn += 1
        case = order_case(rng, "pairs", next(source))
        yield as_given_singly(case) if turn % 8 == 0 else case
        if turn % 3 == 0:
            yield from indexed_cases(rng, 4)
        if turn % 10 == 0:
            yield from sequence(rng, calls, rng.choice((2, 4, 8, 25)))
        if turn % 12 == 0:
            yield filled_case(rng)
        if turn % 16 == 0:
            yield order_case(rng, "pairs", rng.choice(long_records))
