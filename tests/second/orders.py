"""The three orders on a record: removal, join and part, with 14 to 18.

The view is found by its name first (names.py, 13). Each order gives a new structure
in which only that view's lines and index differ, and after a removal its pores (26 in
pores.py); building it gives the new bytes, and 19 where they are too many.
"""

from dataclasses import replace

from model import PORES_TYPE, QUALITY_TYPE, Index, Refusal, least_width
from names import name_of, named_view
from pores import is_at_fault, left_by_removal


def counted_view(record, finger, number, count):
    """The view that an order names, with the line count it was made for: 13, 14."""
    view = named_view(record, finger, number)
    if count != len(view.lines):
        raise Refusal(14)
    return view


def with_view(record, new):
    """The record with a view exchanged for a new one, which has the same name."""
    views = [new if name_of(view) == name_of(new) else view for view in record.views]
    return replace(record, views=views)


def removal_list(data, count):
    """The line numbers of a removal, 16 bits each: 15 unless they are right."""
    if len(data) == 0 or len(data) % 2 == 1:
        raise Refusal(15)
    numbers = [int.from_bytes(data[at:at + 2], "big")
               for at in range(0, len(data), 2)]
    for before, after in zip(numbers, numbers[1:]):
        if not before < after:
            raise Refusal(15)
    for number in numbers:
        if number >= count:
            raise Refusal(15)
    return numbers


def judge_types(view):
    """16 where a segment is neither of local quality nor of pores, whether or not some
    pores are at fault."""
    others = [at for at, segment in enumerate(view.segments)
              if segment.type not in (QUALITY_TYPE, PORES_TYPE)]
    if not others:
        return
    bad = [at for at, segment in enumerate(view.segments) if is_at_fault(view, segment)]
    if not bad:
        raise Refusal(16, 0, "no pores at fault")
    if bad[0] < others[0]:
        raise Refusal(16, 0, "bad pores before")
    raise Refusal(16, 0, "bad pores behind")


def remove(record, finger, number, count, list_bytes):
    """Removal: the survivors are renumbered, a removed line leaves all lists, and its
    pores go.

    Segments of local quality are carried as they stand; another type gives 16.
    """
    view = counted_view(record, finger, number, count)
    removed = set(removal_list(list_bytes, count))
    judge_types(view)
    segments = left_by_removal(view, removed)
    survivors = [line for line in range(count) if line not in removed]
    new_number = {old: new for new, old in enumerate(survivors)}
    index = None
    if view.index is not None:
        neighbours = []
        for old in survivors:
            neighbours.append([new_number[neighbour]
                               for neighbour in view.index.neighbours[old]
                               if neighbour not in removed])
        index = Index(least_width(neighbours), neighbours)
    edited = replace(view, lines=[view.lines[old] for old in survivors],
                     index=index, segments=segments)
    return with_view(record, edited)


def indexed_view(record, finger, number, count):
    """The view of pair orders: 13, 14, 17."""
    view = counted_view(record, finger, number, count)
    if view.index is None:
        raise Refusal(17)
    return view


def pair_view(record, finger, number, count, first, second):
    """A pair order's view, the higher and the lower line: 13, 14, 17, 15."""
    view = indexed_view(record, finger, number, count)
    if first >= count or second >= count:
        raise Refusal(15)
    return view, max(first, second), min(first, second)


def with_list(record, view, line, listed):
    """The record in which one line's list is exchanged and w is the least."""
    neighbours = list(view.index.neighbours)
    neighbours[line] = listed
    index = Index(least_width(neighbours), neighbours)
    return with_view(record, replace(view, index=index))


def join(record, finger, number, count, first, second):
    """Join: the two lines become neighbours; 18 if they are."""
    view, higher, lower = pair_view(record, finger, number, count, first, second)
    listed = view.index.neighbours[higher]
    if lower in listed:
        raise Refusal(18)
    longer = sorted(listed + [lower], reverse=True)
    return with_list(record, view, higher, longer)


def part(record, finger, number, count, first, second):
    """Part: the two lines are no longer neighbours; 18 if they are not."""
    view, higher, lower = pair_view(record, finger, number, count, first, second)
    listed = view.index.neighbours[higher]
    if lower not in listed:
        raise Refusal(18)
    shorter = [neighbour for neighbour in listed if neighbour != lower]
    return with_list(record, view, higher, shorter)
