"""The four laws of request [8], each as a check on one record, or of the last on two.

Each check makes a Trial (laws_trial.py): it gives its orders, and holds what comes back
against the law, byte for byte.
"""

from dataclasses import replace

from build import build, index_bytes
from model import Index
from names import named_view
from orders import with_view
from orders_plan import numbers_as_bytes
from pairs import JOIN, ORDER_BYTES, PART
from laws_trial import (PLACES, Order, Trial, fills, held, list_order, pair_order,
                        removal, same, view_bytes, view_ends, view_of)
from results import judged


# ---- law 1 ----

def ways_of_lines(count, first, second):
    """How the lines of A and B stand to each other, and which they are."""
    gone = first + second
    if max(first) < min(second):
        yield "A before B"
    elif max(second) < min(first):
        yield "B before A"
    else:
        yield "A and B mixed"
    for way, there in (("first line", 0 in gone), ("last line", count - 1 in gone),
                       ("all lines", len(gone) == count)):
        if there:
            yield way


def ways_of_widths(name, records):
    """How w changes from the old record by A, and then by B where that is accepted."""
    indexes = [view_of(data, name).index for data in records]
    if indexes[0] is None:
        yield "no index"
        return
    for who, before, after in zip("AB", indexes, indexes[1:]):
        if before.w != after.w:
            yield who + (" widens w" if before.w < after.w else " narrows w")


def hold_against_both(trial, data, name, first, second, one, after):
    """What B comes to behind A, and what both at once come to; B has old numbers."""
    view = view_of(data, name)
    count = len(view.lines)
    both = trial.give(removal(name, count, sorted(first + second)), data)
    trial.must(same(after, both), "B behind A does not come to both at once")
    trial.ways |= held(view) | fills(one.length, after.length)
    trial.ways.update(ways_of_lines(count, first, second))
    records = [data, one.written]
    if after.number == 0:
        records.append(after.written)
    elif after.number == 19:
        trial.ways.add("19")
    trial.ways.update(ways_of_widths(name, records))


def lines_left(data, name, first):
    """The lines that A leaves, by their old numbers, and how many there were."""
    count = len(view_of(data, name).lines)
    return [line for line in range(count) if line not in first], count


def two_removals(data, name, first, second):
    """Law 1 for the list A, and for B by the numbers that its lines had before A."""
    trial = Trial()
    left, count = lines_left(data, name, first)
    one = trial.give(removal(name, count, first), data)
    if one.number != 0:
        return trial
    renumbered = [left.index(line) for line in second]
    after = trial.give(removal(name, len(left), renumbered), one.written)
    hold_against_both(trial, data, name, first, second, one, after)
    trial.ways.add("B by old numbers")
    return trial


def any_second_list(data, name, first, listed):
    """Law 1 for the list A, and for any bytes that are lent as a list behind it: where
    they are accepted, the old numbers of their lines are a B."""
    trial = Trial()
    left, count = lines_left(data, name, first)
    one = trial.give(removal(name, count, first), data)
    if one.number != 0:
        return trial
    after = trial.give(Order("remove", name, [len(left)], [listed]), one.written)
    if after.number != 0:
        return trial
    places = [int.from_bytes(listed[at:at + 2], "big")
              for at in range(0, len(listed), 2)]
    second = [left[place] for place in places if place < len(left)]
    is_such = second and len(second) == len(places) and sorted(set(second)) == second
    trial.must(is_such and numbers_as_bytes(places) == listed, "the list is no such B")
    if is_such:
        hold_against_both(trial, data, name, first, second, one, after)
        trial.ways.add("any second list")
    return trial


# ---- law 2 ----

def ways_of_views(data, one, other):
    """What the two views have, whose they are, and the kinds of the orders."""
    names = list(view_ends(data))
    one, other = sorted((one, other), key=lambda order: names.index(order.name))
    yield from held(view_of(data, one.name)) | held(view_of(data, other.name))
    yield "one finger" if one.name[0] == other.name[0] else "two fingers"
    yield "%s and %s" % (one.call, other.call)
    if any(order.call == "pairs" and len(order.slices[0]) > ORDER_BYTES
           for order in (one, other)):
        yield "a list of several"


def two_views(data, one, other):
    """Law 2 for two orders on views with different names. Of a list the records in
    between can be too long one way alone; then nothing is asked."""
    trial = Trial()
    alone = [trial.give(order, data) for order in (one, other)]
    if any(found.number != 0 for found in alone):
        return trial
    last = [trial.give(other, alone[0].written), trial.give(one, alone[1].written)]
    numbers = [found.number for found in last]
    if "pairs" in (one.call, other.call) and numbers != [0, 0]:
        trial.ways = {"19 one way alone"} if sorted(numbers) == [0, 19] else set()
        return trial
    trial.must(same(*last), "it matters which of two orders comes first")
    trial.ways = set(ways_of_views(data, one, other))
    trial.ways |= fills(*(found.length for found in last))
    if numbers == [19, 19]:
        trial.ways.add("19")
    return trial


# ---- law 3 ----

def narrowest(neighbours):
    """The least width of some lists: the first at which they can be written."""
    for w in range(1, 17):
        try:
            index_bytes(Index(w, neighbours))
            return w
        except ValueError:
            pass
    raise ValueError("no width takes these lists")


def at_least_width(data, name):
    """The record in which this view's index has its least width, all else as it was."""
    record = judged(data)
    view = named_view(record, *name)
    index = replace(view.index, w=narrowest(view.index.neighbours))
    return build(with_view(record, replace(view, index=index)))


def ways_back(view, between, calls, pairs):
    """Of the old view and the one in between, the calls and the pairs they name."""
    yield from held(view)
    yield calls[0] + " first"
    yield "a line with itself" if len(set(pairs[0])) == 1 else "two lines"
    if pairs[0] != pairs[1]:
        yield "lines exchanged"
    if between.index.w > view.index.w:
        yield "w wider in between"


def there_and_back(data, name, calls, pairs):
    """Law 3: the first call on its pair, then the other on its own, which is the same
    two lines; singly, and in one list."""
    trial, view = Trial(), view_of(data, name)
    count = len(view.lines)
    there = trial.give(pair_order(calls[0], name, count, pairs[0]), data)
    if there.number != 0:
        return trial
    back = trial.give(pair_order(calls[1], name, count, pairs[1]), there.written)
    listed = [(JOIN if call == "join" else PART, *pair)
              for call, pair in zip(calls, pairs)]
    at_once = trial.give(list_order(name, count, listed), data)
    wanted = at_least_width(data, name)
    for found in (back, at_once):
        trial.must(found.number == 0 and found.written == wanted,
                   "what is left is not the old record at the view's least width")
    least = view.index.w == narrowest(view.index.neighbours)
    if least:
        trial.must(back.written == data, "the bytes are not the old ones")
    trial.ways = fills(there.length) | {"w the least" if least else "w not the least"}
    trial.ways.update(ways_back(view, view_of(there.written, name), calls, pairs))
    return trial


# ---- law 4 ----

def place_of(data, name):
    """Whether a view stands first, last, or between others."""
    names = list(view_ends(data))
    place = names.index(name)
    return PLACES[0 if place == 0 else 2 if place == len(names) - 1 else 1]


def same_view(one, other, order):
    """Law 4 for two records with equal widths that hold the same bytes of a view."""
    name, trial = order.name, Trial()
    assert one[16:19] == other[16:19] and one[12:16] != other[12:16]
    assert view_bytes(one, name) == view_bytes(other, name)
    found = [trial.give(order, data) for data in (one, other)]
    if any(result.number != 0 for result in found):
        return trial
    new = [view_bytes(result.written, name) for result in found]
    trial.must(new[0] == new[1], "the view's new bytes are not the same")
    trial.ways = held(view_of(one, name)) | {order.call}
    trial.ways |= fills(len(one), len(other), *(result.length for result in found))
    trial.ways |= {place_of(data, name) for data in (one, other)}
    if view_ends(one)[name] != view_ends(other)[name]:
        trial.ways.add("at another byte")
    if name[1] > 0:
        trial.ways.add("number above 0")
    return trial
