"""Plans the cases of each call: which records, which arguments, how often.

A call's cases are an endless stream that mixes right and damaged records in
turns, so that every refusal is met again and again; a share is kept for the
records at the edges, for names of views that are easily mistaken, and for the laws.
"""

from functools import partial
from itertools import cycle

from answers import NAMING, ORDERS, SIZED
from build import build
from card_plan import card_read_stream, card_write_stream
from damage import KINDS, LONG_KINDS, damaged
from damage_sheet import KINDS as SHEET_KINDS
from damage_sheet import damaged_sheet, long_sheets
from edges import edge_records, heading_records
from edges_sheet import some_edge_sheets
from laws_plan import with_laws
from lend import lend, place_in
from make import long_records, random_record
from make_names import any_name, name_in
from model import Record
from names import find_view, name_of
from names_plan import name_cases, small_names
from orders_plan import limit_cases, order_case, order_stream, sequence
from pairs import JOIN, PART, bytes_of
from pairs_plan import list_edge_cases, pairs_stream
from pores_plan import pore_pairs, pore_removals, pores_stream, set_pores_stream
from quality_plan import quality_stream, removal_edges, set_quality_stream
from results import judged
from rules_plan import check_stream
from runs_plan import runs_streams
from sheet import to_sheet

# For each order about pairs what it takes behind the view, where there are three lines,
# each next to the one before.
ON_THREE_LINES = {"join": ([3, 0, 0], []), "part": ([3, 1, 0], []),
                  "pairs": ([3], [bytes_of([(JOIN, 2, 2), (PART, 1, 0)])])}


class Stock:
    """Long records, damaged long records and edges, made once for all calls."""

    def __init__(self, rng):
        self.long = [build(record) for record in long_records(rng)]
        self.long_damaged = [damaged(rng, random_record(rng, "small"), kind)
                             for kind in LONG_KINDS for _ in range(10)]
        self.first_edges, self.edges = edge_records()
        self.sheets = long_sheets(rng)


def right_bytes(rng, stock, segments=0.5):
    """The bytes of a right record of any kind."""
    if rng.random() < 0.015:
        return rng.choice(stock.long)
    size = rng.choices(("tiny", "small", "middle", "fingers", "views"),
                       (28, 44, 15, 10, 3))[0]
    return build(random_record(rng, size, segments))


def damaged_bytes(rng, stock, kinds):
    """The bytes of a damaged record; `kinds` gives the damages in turn."""
    if rng.random() < 0.06:
        return rng.choice(stock.long_damaged)
    size = rng.choices(("tiny", "small", "middle"), (45, 50, 5))[0]
    return damaged(rng, random_record(rng, size), next(kinds))


def some_edges(rng, stock, most):
    """All records at the edges, or `most` of them, the first ones among these."""
    if len(stock.first_edges) + len(stock.edges) <= most:
        return stock.first_edges + stock.edges
    others = max(0, most - len(stock.first_edges))
    return stock.first_edges[:most] + rng.sample(stock.edges, others)


def records(rng, stock, most_edges, right_share, segments=0.5):
    """An endless stream of record bytes; the edges come first."""
    yield from some_edges(rng, stock, most_edges)
    kinds = cycle(KINDS)
    while True:
        if rng.random() < right_share:
            yield right_bytes(rng, stock, segments)
        else:
            yield damaged_bytes(rng, stock, kinds)


def read_stream(rng, stock, budget):
    for data in records(rng, stock, budget * 3 // 5, 0.4):
        yield lend(rng, "read", [], [data])
        if rng.random() < 0.1:
            yield lend(rng, "read", [], [data])


def check_call_stream(rng, stock, budget):
    """The edges of the check, then records as for reading, and others with a low b."""
    return check_stream(rng, records(rng, stock, budget // 4, 0.4))


def view_with(rng, record, what):
    """A view's name, mostly of one with lines or segments, and these."""
    having = [view for view in record.views if getattr(view, what)]
    name = name_in(rng, record)
    if having and rng.random() < 0.7:
        name = name_of(rng.choice(having))
    view = find_view(record, *name)
    return name, getattr(view, what) if view else []


def trail_stream(rng, stock, budget):
    """Every line of a few records, otherwise some lines of many.

    Where the first heading is all there is to see, the room just fits.
    """
    for data, name in small_names():
        for line in range(4):
            yield lend(rng, "trail", [*name, line], [data])
    for data in heading_records():
        view = judged(data).views[0]
        for line in range(len(view.lines)):
            yield lend(rng, "trail", [*name_of(view), line], [data], 2)
    for data in records(rng, stock, budget * 2 // 5, 0.75):
        record = judged(data)
        if not isinstance(record, Record):
            yield lend(rng, "trail", [*any_name(rng), rng.randrange(3)], [data])
            continue
        for _ in range(rng.randint(1, 3)):
            name, lines = view_with(rng, record, "lines")
            yield lend(rng, "trail", [*name, place_in(rng, len(lines))], [data])


def segment_stream(rng, stock, budget):
    """Every segment of a few records, otherwise some segments of many."""
    for data, name in small_names():
        for segment in range(4):
            yield lend(rng, "segment", [*name, segment], [data])
    for data in records(rng, stock, budget * 2 // 5, 0.75, 0.9):
        record = judged(data)
        if not isinstance(record, Record):
            yield lend(rng, "segment", [*any_name(rng), 0], [data])
            continue
        for _ in range(rng.randint(1, 2)):
            name, found = view_with(rng, record, "segments")
            yield lend(rng, "segment", [*name, place_in(rng, len(found))], [data])


def write_stream(rng, stock, budget):
    """Long sheets, sheets at the edges, then right ones and all damages in turn."""
    for sheet in stock.sheets + some_edge_sheets(rng, budget // 2):
        yield lend(rng, "write", [], [sheet])
    kinds = cycle(SHEET_KINDS)
    while True:
        if rng.random() < 0.015:
            yield lend(rng, "write", [], [rng.choice(stock.sheets)])
        size = rng.choices(("tiny", "small", "middle", "views"), (30, 52, 17, 1))[0]
        record = random_record(rng, size)
        if rng.random() < 0.3:
            yield lend(rng, "write", [], [to_sheet(record)])
        else:
            sheet = damaged_sheet(rng, record, next(kinds))
            yield lend(rng, "write", [], [sheet])


def holds_stream(rng, stock, _budget):
    """After real orders, and with numbers and lengths of every sort."""
    while True:
        old = right_bytes(rng, stock, 0.4)
        if rng.random() < 0.2:
            old = rng.randbytes(rng.randint(0, 60))
        case = order_case(rng, rng.choice(ORDERS), old)
        expected = case.expected
        second = expected.written + bytes([case.fill]) * (
            case.out_size - len(expected.written))
        yield lend(rng, "holds", [expected.number, expected.length], [old, second])
        room = rng.choice((0, 1, 30, rng.randint(0, 90)))
        length = rng.choice((0, room, room + 1, max(0, room - 1), 1 << 32,
                             room + (1 << 32), (1 << 63), (1 << 64) - 1))
        number = rng.choice((0, 0, 0, 0, 0, 1, 20, 256, 1 << 31, (1 << 32) - 1))
        yield lend(rng, "holds", [number, length], [old, rng.randbytes(room)])


def order_call_stream(call, sequenced, rng, stock, budget):
    """The edges, then one order's cases; their sequences use all calls chosen."""
    yield from limit_cases(rng, call)
    if call == "remove":
        yield from removal_edges(rng, budget // 20)
        yield from pore_removals(rng, "pores" in sequenced, budget // 20)
    else:
        yield from pore_pairs(rng, call, *ON_THREE_LINES[call], budget // 20)
    for data in some_edges(rng, stock, budget * 2 // 5):
        yield order_case(rng, call, data)
    segments = 0.4 if call == "remove" else 0.5
    source = records(rng, stock, 0, 0.75, segments)
    yield from order_stream(rng, call, sequenced, source)


def pairs_call_stream(sequenced, rng, stock, budget):
    """Lists at the edges, records at the edges, then lists at random."""
    yield from list_edge_cases(rng, budget // 5)
    yield from pore_pairs(rng, "pairs", *ON_THREE_LINES["pairs"], budget // 40)
    for data in some_edges(rng, stock, budget // 4):
        yield order_case(rng, "pairs", data)
    source = records(rng, stock, 0, 0.85)
    yield from pairs_stream(rng, sequenced, source, stock.long)


def quality_call_stream(stream, rng, stock, budget):
    """The cases of a call on local quality; mostly there is such a segment."""
    source = records(rng, stock, budget // 3, 0.8, 0.97)
    yield from stream(rng, source, budget // 5)


def pores_call_stream(stream, sequenced, rng, stock, budget):
    """The cases of a call on pores; mostly there is such a segment. Sequences of the
    calls chosen stand between them."""
    source = records(rng, stock, budget // 3, 0.8, 0.97)
    for turn, case in enumerate(stream(rng, source, budget // 5)):
        yield case
        if turn % 25 == 0:
            yield from sequence(rng, sequenced, rng.choice((2, 4, 8)))


def names_first(call, stream, rng, stock, budget):
    """Names of views at the edges, then the other cases of a call that names one."""
    yield from name_cases(rng, call, budget // 20)
    yield from stream(rng, stock, budget)


def streams(calls):
    """For each chosen call the maker of its stream of cases."""
    makers = {"read": read_stream, "trail": trail_stream,
              "segment": segment_stream, "write": write_stream,
              "holds": holds_stream,
              "quality": partial(quality_call_stream, quality_stream),
              "set_quality": partial(quality_call_stream, set_quality_stream),
              "card_read": card_read_stream, "card_write": card_write_stream,
              "check": check_call_stream,
              **runs_streams()}
    sequenced = [call for call in calls if call in ORDERS or call == "pores"]
    makers["pores"] = partial(pores_call_stream, pores_stream, sequenced)
    makers["set_pores"] = partial(pores_call_stream, set_pores_stream, sequenced)
    for call in ("remove", "join", "part"):
        makers[call] = partial(order_call_stream, call, sequenced)
    makers["pairs"] = partial(pairs_call_stream, sequenced)
    for call in NAMING:
        if call not in SIZED:
            makers[call] = partial(names_first, call, makers[call])
    return with_laws(makers, calls)
