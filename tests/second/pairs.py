"""Many pairs in one call, request [4]: a list of joins and parts on one view.

The orders are given singly, each to the record that the one before left. A Walk
does that with 15 and 18 alone, and keeps how long each record is that an order
left; then 32,768 bytes and the lent room are held against these lengths in turn,
so that one Walk tells what comes of the list in every room.
"""

import struct
from dataclasses import dataclass, field

import orders
from build import index_size
from model import LARGEST_RECORD, Record, Refusal
from names import named_view

JOIN, PART = 0, 1
GIVEN = {JOIN: orders.join, PART: orders.part}
ORDER_BYTES = 6

# Where in its list an order stands that is refused; and, of 19 and 20, whether the
# orders behind it would lead back to a record that fits. They are only counted.
PLACES = ("only order", "first order", "middle order", "last order")
PASSINGS = PLACES + ("first, then back", "middle, then back")
PAIR_FAULTS = {15: PLACES, 18: PLACES, 19: PASSINGS, 20: PASSINGS}
# The ways in which accepted lists differ; they are only counted.
LISTS = ("one order", "2 to 20 orders", "21 to 200 orders", "over 200 orders",
         "joins alone", "parts alone", "joins and parts", "a pair again",
         "a pair reversed", "a line with itself", "w stays", "w grows", "w shrinks",
         "w widest in between", "w narrowest in between", "longer",
         "as long as before", "shorter", "not a byte changed", "longest in between",
         "in just enough room")


@dataclass
class Walk:
    """The orders given singly, where 19 and 20 are left aside.

    `lengths` and `widths` are the record's bytes and its w behind each order that
    was obeyed; `number` is 15 or 18 where the one behind these was refused, else 0.
    """

    listed: list
    record: Record
    lengths: list = field(default_factory=list)
    widths: list = field(default_factory=list)
    number: int = 0


def orders_of(data):
    """The whole orders of a list's bytes: three 16-bit numbers each."""
    whole = len(data) // ORDER_BYTES * ORDER_BYTES
    return list(struct.iter_unpack(">HHH", data[:whole]))


def bytes_of(listed):
    """The bytes of a list of orders."""
    return b"".join(struct.pack(">HHH", *order) for order in listed)


def walk(record, size, finger, number, count, listed):
    """The Walk of orders on a view of a record that has `size` bytes."""
    others = size - index_size(named_view(record, finger, number).index)
    found = Walk(listed, record)
    for kind, first, second in listed:
        try:
            found.record = GIVEN[kind](found.record, finger, number, count,
                                       first, second)
        except Refusal as refused:
            found.number = refused.number
            break
        index = named_view(found.record, finger, number).index
        found.lengths.append(others + index_size(index))
        found.widths.append(index.w)
    return found


def place_name(place, count):
    """Which of the PLACES a place in a list of so many orders is."""
    if count == 1:
        return "only order"
    if place == 0:
        return "first order"
    return "last order" if place == count - 1 else "middle order"


def right_beginning(listed):
    """The orders before the first whose first number is above 1."""
    for place, order in enumerate(listed):
        if order[0] > PART:
            return listed[:place]
    return listed


def shape_fault(data, listed):
    """What is wrong with a list as a whole, whatever its orders would come to."""
    if len(data) == 0:
        return "empty list"
    if len(data) % ORDER_BYTES != 0:
        return "cut order"
    place = len(right_beginning(listed))
    if place < len(listed):
        return "above 1, " + place_name(place, len(listed))
    return ""


def judge_list(record, size, finger, number, count, data):
    """13, 14, 17, then 25 over the whole list; the Walk of its orders.

    Whether an order before the fault would be refused is only counted.
    """
    orders.indexed_view(record, finger, number, count)
    listed = orders_of(data)
    fault = shape_fault(data, listed)
    found = walk(record, size, finger, number, count, right_beginning(listed))
    if fault and found.number != 0:
        fault = fault.split(",")[0] + " after 15 or 18"
    if fault:
        raise Refusal(25, 0, fault)
    return found


def passing(found, place, limit):
    """Which of the PASSINGS it is where an order's record passes a limit."""
    name = place_name(place, len(found.listed))
    if found.number == 0 and found.lengths[-1] <= limit:
        return name.replace(" order", ", then back")
    return name


def refusal(found, room):
    """Number, place and fault of the first order that is refused; 0 if none is."""
    for place, length in enumerate(found.lengths):
        if length > LARGEST_RECORD:
            return 19, place, passing(found, place, LARGEST_RECORD)
        if length > room:
            return 20, place, passing(found, place, room)
    place = len(found.lengths)
    if found.number != 0:
        return found.number, place, place_name(place, len(found.listed))
    return 0, 0, ""


def number_of_orders(count):
    """The way that tells how many orders a list has."""
    for most, way in zip((1, 20, 200), LISTS):
        if count <= most:
            return way
    return "over 200 orders"


def ways_of_orders(listed):
    """In which ways the orders of an accepted list differ."""
    kinds = {kind for kind, _, _ in listed}
    named = [(first, second) for _, first, second in listed]
    seen = set(named)
    yield number_of_orders(len(listed))
    yield ("joins and parts" if len(kinds) == 2
           else "joins alone" if kinds == {JOIN} else "parts alone")
    if len(seen) < len(named):
        yield "a pair again"
    if any(first != second and (second, first) in seen for first, second in seen):
        yield "a pair reversed"
    if any(first == second for first, second in seen):
        yield "a line with itself"


def ways_of_width(widths):
    """How w changes from the old record through all that the orders left."""
    steps = list(zip(widths, widths[1:]))
    between = widths[1:-1]
    if len(set(widths)) == 1:
        yield "w stays"
    if any(before < after for before, after in steps):
        yield "w grows"
    if any(before > after for before, after in steps):
        yield "w shrinks"
    if between and max(between) > max(widths[0], widths[-1]):
        yield "w widest in between"
    if between and min(between) < min(widths[0], widths[-1]):
        yield "w narrowest in between"


def ways(found, old, old_width, new):
    """In which of the LISTS' ways a list was accepted that made `new` of `old`."""
    yield from ways_of_orders(found.listed)
    yield from ways_of_width([old_width] + found.widths)
    if len(new) != len(old):
        yield "longer" if len(new) > len(old) else "shorter"
    else:
        yield "as long as before"
    if new == old:
        yield "not a byte changed"
    if max(found.lengths) > len(new):
        yield "longest in between"
