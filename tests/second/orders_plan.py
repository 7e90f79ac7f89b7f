"""Plans the cases of the orders: single ones and whole sequences.

In a sequence each accepted result is lent to the next order, as document 01
means it; a refused order leaves the record that now holds. Where lists of pairs or
rewritings are chosen too, they stand among the orders. So do readings of pores; one
stands behind each order that left pores in its view.
"""

from answers import ORDERS, outcome
from build import build
from lend import lend, line_count, place_in
from make import fill, growing, random_record
from make_names import any_name, name_in
from make_pairs import random_list
from make_pores import random_payload
from model import LARGEST_RECORD, PORES_TYPE, QUALITY_TYPE, Record, Segment
from names import find_view, name_of
from pores_plan import pores_case, readings_behind, record_with_pores, set_pores_case
from quality_plan import set_quality_case
from results import judged

# The calls that are planned elsewhere.
CASES = {"set_quality": set_quality_case, "set_pores": set_pores_case,
         "pores": pores_case}


def numbers_as_bytes(numbers):
    return b"".join(number.to_bytes(2, "big") for number in numbers)


def right_list(rng, count):
    """A strictly rising list of lines: one, some, or all."""
    if count == 0:
        return [0]
    kind = rng.choice(("one", "some", "some", "few", "all", "ends"))
    if kind == "one":
        return [rng.randrange(count)]
    if kind == "all":
        return list(range(count))
    if kind == "ends":
        return sorted({0, count - 1})
    most = count if kind == "some" else min(3, count)
    return sorted(rng.sample(range(count), rng.randint(1, most)))


def list_bytes(rng, count):
    """A removal list as bytes: mostly right, else one of the ways to be 15."""
    numbers = right_list(rng, count)
    kind = rng.randrange(40)
    if rng.random() < 0.002:
        return numbers_as_bytes(numbers[:1]) + bytes(131072)
    if kind == 0:
        return b""
    if kind == 1:
        return numbers_as_bytes(numbers) + bytes([rng.randrange(256)])
    if kind == 2:
        return numbers_as_bytes(numbers)[:-1]
    if kind == 3:
        return numbers_as_bytes(numbers + numbers[-1:])
    if kind == 4:
        return numbers_as_bytes(numbers + [0])
    if kind == 5:
        return numbers_as_bytes(numbers + [count])
    if kind == 6:
        return numbers_as_bytes(numbers + [65535])
    if kind == 7:
        return numbers_as_bytes([count, count + 1])
    if kind == 8:
        return numbers_as_bytes(numbers[::-1])
    return numbers_as_bytes(numbers)


def pair_for(rng, call, index, count):
    """Two lines: mostly neighbours for a part and others for a join."""
    first, second = place_in(rng, count, 0.04), place_in(rng, count, 0.04)
    if index is not None and count > 0 and rng.random() < 0.8:
        higher = rng.randrange(count)
        listed = index.neighbours[higher]
        if call == "part":
            with_some = [line for line in range(count) if index.neighbours[line]]
            if with_some:
                higher = rng.choice(with_some)
                first, second = higher, rng.choice(index.neighbours[higher])
        else:
            others = [line for line in range(higher + 1) if line not in listed]
            if others:
                first, second = higher, rng.choice(others)
    return [first, second] if rng.random() < 0.5 else [second, first]


def can_be_obeyed(call, view):
    """Whether some order of this call on the view is accepted, or likely is."""
    if call == "remove":
        return view.lines and all(segment.type in (QUALITY_TYPE, PORES_TYPE)
                                  for segment in view.segments)
    return view.lines and view.index is not None


def chosen_name(rng, call, record):
    """A view's name: mostly of one in which the order can be obeyed."""
    fitting = [view for view in record.views if can_be_obeyed(call, view)]
    if fitting and rng.random() < 0.8:
        return name_of(rng.choice(fitting))
    return name_in(rng, record, 0.25)


def order_case(rng, call, data):
    """One order, a list of pairs, a rewriting or a reading of pores, on a record's
    bytes."""
    if call in CASES:
        return CASES[call](rng, data)
    record = judged(data)
    name, count, index = any_name(rng), rng.randrange(3), None
    if isinstance(record, Record):
        name = chosen_name(rng, call, record)
        view = find_view(record, *name)
        count = len(view.lines) if view else 0
        index = view.index if view else None
    numbers = [*name, line_count(rng, count)]
    if call == "remove":
        return lend(rng, call, numbers, [data, list_bytes(rng, count)])
    if call == "pairs":
        return lend(rng, call, numbers, [data, random_list(rng, index, count)])
    numbers += pair_for(rng, call, index, count)
    return lend(rng, call, numbers, [data])


def sequence(rng, calls, length):
    """Orders one after another; each accepted result is lent to the next. Many start
    from a record of which every view has right pores."""
    size = rng.choices(("small", "middle", "fingers", "views"), (40, 27, 30, 3))[0]
    data = build(random_record(rng, size, 0.5))
    if rng.random() < 0.5:
        data = record_with_pores(rng)
    for _ in range(length):
        case = order_case(rng, rng.choice(calls), data)
        yield case
        if case.call in ORDERS and case.expected.number == 0:
            data = case.expected.written
            if "pores" in calls:
                yield from readings_behind(rng, case)


def growing_order(rng, call, view, middle):
    """The arguments of an order that makes w grow in a view of make.growing."""
    lines = len(view.lines)
    numbers = [*name_of(view), lines]
    if call == "remove":
        gone = rng.choice(([middle], [middle], [middle - 1, middle]))
        return numbers, [numbers_as_bytes(gone)]
    if call == "part":
        return numbers + [lines - 1, middle], []
    return numbers + [rng.randint(middle + 1, lines - 1), 1], []


def filled_to(record, call, arguments, past, view, type_):
    """The bytes of a record filled with a segment in a view, so that what an order
    leaves has `past` bytes more than 32,768, or what it is given has as many."""
    data = build(record)
    numbers, more = arguments
    growth = outcome(call, numbers, [data] + more).length - len(data)
    return build(fill(record, LARGEST_RECORD + min(growth, past) - growth, view, type_))


def growing_case(rng, call):
    """An order that makes w grow, mostly up to 32,768 bytes or just past it: 19.

    What fills the record stands in another view, or is carried as local quality. Where
    the edited view has few lines, it may have pores.
    """
    record, middle = growing(rng, rng.randint(2, 9))
    edited, other = record.views
    if middle < 64 and rng.random() < 0.5:
        edited.segments.append(
            Segment(PORES_TYPE, random_payload(rng, len(edited.lines), 0.9)))
    arguments = growing_order(rng, call, edited, middle)
    data = build(record)
    if rng.random() < 0.8:
        view, type_ = rng.choice(((other, 0x0123), (edited, QUALITY_TYPE)))
        past = rng.choice((-1, 0, 0, 1, 1, 2, 9))
        data = filled_to(record, call, arguments, past, view, type_)
    out_size = rng.choice((None, None, 0, 32767, 32768, 32769, 40000))
    return lend(rng, call, arguments[0], [data] + arguments[1], out_size)


def limit_cases(rng, call):
    """Orders that make w grow in a view with pores: to 32,768 bytes, with just the room
    for them and with a byte less, and to a byte more: 19."""
    for past, out_size in ((0, LARGEST_RECORD), (0, LARGEST_RECORD - 1), (1, 40000)):
        record, middle = growing(rng, 7)
        edited, other = record.views
        payload = random_payload(rng, len(edited.lines), 1.0)
        edited.segments = [Segment(PORES_TYPE, payload)]
        numbers, more = growing_order(rng, call, edited, middle)
        data = filled_to(record, call, (numbers, more), past, other, 0x0123)
        yield lend(rng, call, numbers, [data] + more, out_size)


def order_stream(rng, call, calls, source):
    """An endless stream: single orders, sequences, and results that grow."""
    turn = 0
    while True:
        turn += 1
        yield order_case(rng, call, next(source))
        if turn % 6 == 0:
            yield from sequence(rng, calls, rng.choice((2, 4, 8, 25)))
        if turn % 9 == 0:
            yield growing_case(rng, call)
