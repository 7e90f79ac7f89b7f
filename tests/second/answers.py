"""What each host call must answer: number, place, length and written bytes.

The outcome of a call is worked out once with all the room it wants; then the
lent output decides between acceptance and 20. Of a list of pairs every record in
between has to fit, so that 20 can also come before another refusal.
"""

from dataclasses import replace

import card
import card_ways
import orders
import pairs
import pores
import pores_ways
import quality
import rules
import runs
from build import build
from model import LARGEST_RECORD, Refusal
from names import named_view
from results import Outcome, judged_card, raised, record_of, written
from sheet import from_sheet, to_sheet
from trail import rounding, trail

CALLS = {"read": 1, "write": 2, "trail": 3, "segment": 4,
         "remove": 5, "join": 6, "part": 7, "holds": 8,
         "quality": 9, "set_quality": 10, "pairs": 11,
         "pores": 12, "set_pores": 13, "card_read": 14, "card_write": 15,
         "low_bytes": 16, "from_low_bytes": 17, "check": 18}
# The calls that write a record in which one view is changed, and all calls that name a
# view: its finger position and its number are the first two numbers that they take, but
# for card_write, where the card's size stands before them. Then the calls with a size.
ORDERS = ("remove", "join", "part", "pairs", "set_quality", "set_pores")
NAMING = ("trail", "segment", "quality", "pores", "card_write") + ORDERS
SIZED = ("card_read", "card_write")


def with_name(call, name, others):
    """The numbers that a naming call takes: the name, and the others."""
    return [*others, *name] if call in SIZED else [*name, *others]


def name_passed(call, numbers):
    """The name among the numbers that a naming call takes."""
    return tuple(numbers[1:3] if call in SIZED else numbers[:2])


def answer_read(record):
    return written(to_sheet(record_of(record)))


def answer_write(sheet):
    return written(build(from_sheet(sheet)))


def answer_trail(finger, number, line, record):
    """Record, then 13, 15; two bytes for each element, high byte first.

    A trail without elements has no way of rounding, as it shows none.
    """
    whole = record_of(record)
    lines = named_view(whole, finger, number).lines
    if line >= len(lines):
        raise Refusal(15)
    elements = trail(lines[line], whole)
    ways = ()
    if elements:
        ways = (rounding(lines[line].start_direction, whole.half_turn, whole.b),)
    return written(b"".join(element.to_bytes(2, "big") for element in elements),
                   2, ways)


def view_with_segment(record, finger, number, segment):
    """The view that has a segment asked for by view and place: 13, 23."""
    view = named_view(record, finger, number)
    if segment >= len(view.segments):
        raise Refusal(23)
    return view


def answer_segment(finger, number, segment, record):
    """Record, then 13, 23; the payload's first bit and its length in bytes."""
    view = view_with_segment(record_of(record), finger, number, segment)
    found = view.segments[segment]
    return Outcome(0, found.payload_bit, len(found.payload))


def answer_remove(finger, number, count, record, lines):
    """Record, then 13, 14, 15, 16, 26, 19; the record without these lines."""
    whole = record_of(record)
    edited = orders.remove(whole, finger, number, count, lines)
    data = build(edited)
    old, new = [named_view(each, finger, number) for each in (whole, edited)]
    removed = orders.removal_list(lines, count)
    return written(data, ways=(*quality.carried(old),
                               *pores_ways.removal(old, new, removed)))


def answer_join(finger, number, count, first, second, record):
    return written(build(orders.join(record_of(record), finger, number, count,
                                     first, second)))


def answer_part(finger, number, count, first, second, record):
    return written(build(orders.part(record_of(record), finger, number, count,
                                     first, second)))


def answer_pairs(finger, number, count, record, listed):
    """Record, then 13, 14, 17, 25; then the orders in turn, each 15, 18, 19."""
    whole = record_of(record)
    found = pairs.judge_list(whole, len(record), finger, number, count, listed)
    refused, place, fault = pairs.refusal(found, LARGEST_RECORD)
    if refused != 0:
        return Outcome(refused, place, fault=fault, walk=found)
    new = build(found.record)
    assert len(new) == found.lengths[-1]
    old_width = named_view(whole, finger, number).index.w
    return replace(written(new, 1, tuple(pairs.ways(found, record, old_width, new))),
                   walk=found)


def answer_holds(number, length, old, second):
    """What stands as the number is `second`: 1 where the second buffer's first
    bytes hold, 0 where the whole old record does."""
    if number == 0 and length <= len(second):
        return Outcome(1, 0, length)
    return Outcome(0, 0, len(old))


def answer_quality(finger, number, segment, record):
    """Record, then 13, 23, 24; the payload's values."""
    view = view_with_segment(record_of(record), finger, number, segment)
    found = quality.read(view, view.segments[segment])
    return written(quality.to_values(found), ways=(quality.reading(found),))


def answer_set_quality(finger, number, segment, record, values):
    """Record, then 13, 23, 24, 19; the record with that payload rewritten."""
    whole = record_of(record)
    old = view_with_segment(whole, finger, number, segment)
    new = quality.rewrite(old, segment, values)
    return written(build(orders.with_view(whole, new)),
                   ways=(quality.rewriting(old, segment, new),))


def answer_pores(finger, number, segment, record):
    """Record, then 13, 23, 26; four bytes for each number, high byte first."""
    view = view_with_segment(record_of(record), finger, number, segment)
    found = pores.read(view, view.segments[segment])
    return written(pores.to_numbers(found), pores.NUMBER_BYTES,
                   tuple(pores_ways.reading(found)))


def answer_set_pores(finger, number, segment, record, numbers):
    """Record, then 13, 23, 26, 19; the record with that payload rewritten."""
    whole = record_of(record)
    old = view_with_segment(whole, finger, number, segment)
    new = pores.rewrite(old, segment, numbers)
    return written(build(orders.with_view(whole, new)),
                   ways=tuple(pores_ways.rewriting(old, segment, new)))


def answer_card_read(size, data):
    """27 over the size and the shape, then 9 and 8, 10, 19; a record of one view."""
    found, record = raised(judged_card(size, data))
    return written(record, ways=tuple(card_ways.reading(found, len(record))))


def answer_card_write(size, finger, number, record):
    """27 over the size, the record, then 13, 28; the view's object."""
    card.judge_size(size)
    whole = record_of(record)
    view = named_view(whole, finger, number)
    data = card.write(size, whole, view)
    shape = card.judge_template(data)
    return written(data, ways=tuple(card_ways.writing(whole, len(record), view, shape)))


def answer_low_bytes(run):
    """29; a byte for each number."""
    found, numbers = runs.to_low_bytes(run)
    return written(found, ways=tuple(runs.ways_of(numbers)))


def answer_from_low_bytes(data):
    """29; two bytes for each number, high byte first."""
    numbers = runs.from_low_bytes(data)
    return written(runs.bytes_of(numbers), runs.NUMBER_BYTES,
                   tuple(runs.ways_of(numbers)))


ANSWERS = {"read": answer_read, "write": answer_write, "trail": answer_trail,
           "segment": answer_segment, "remove": answer_remove,
           "join": answer_join, "part": answer_part, "pairs": answer_pairs,
           "holds": answer_holds, "quality": answer_quality,
           "set_quality": answer_set_quality, "pores": answer_pores,
           "set_pores": answer_set_pores, "card_read": answer_card_read,
           "card_write": answer_card_write, "low_bytes": answer_low_bytes,
           "from_low_bytes": answer_from_low_bytes, "check": rules.check}


def outcome(call, numbers, slices):
    """The outcome of a call whose output has all the room it wants."""
    try:
        return ANSWERS[call](*numbers, *slices)
    except Refusal as refusal:
        return Outcome(refusal.number, refusal.place, fault=refusal.fault)


def lent_to_list(result, out_size):
    """The outcome of a list of pairs in a lent output: each order, also one before
    another refusal, has to find room for the record that it leaves."""
    number, place, fault = pairs.refusal(result.walk, out_size)
    if number != 0:
        return Outcome(number, place, fault=fault)
    if out_size == max(result.walk.lengths):
        return replace(result, ways=result.ways + ("in just enough room",))
    return result


def lent(result, out_size):
    """The outcome where the lent output has `out_size` bytes: 20 comes last. How the
    room fits is a way in which the call was answered."""
    if result.walk is not None:
        return lent_to_list(result, out_size)
    room, over = divmod(out_size, result.size)
    short = len(result.written) // result.size - room
    ways = ("bytes over",) if over else ()
    if short > 0:
        return Outcome(20, ways=ways + (("one element short",) if short == 1 else ()))
    if result.number == 0 and short == 0:
        ways += ("in just enough room",)
    return replace(result, ways=result.ways + ways)


def given_singly(finger, number, count, record, listed, out_size):
    """A list's orders by the calls themselves: number, place and the bytes written.

    Each has the same room, and is lent the bytes that the one before wrote.
    """
    for place, (kind, first, second) in enumerate(pairs.orders_of(listed)):
        call = "join" if kind == pairs.JOIN else "part"
        result = outcome(call, [finger, number, count, first, second], [record])
        result = lent(result, out_size)
        if result.number != 0:
            return result.number, place, b""
        record = result.written
    return 0, 0, record
