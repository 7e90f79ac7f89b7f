"""The four laws of request [8] by name, the ways to meet them, and one trial of a law.

An Order can be given to any record. A Trial gives orders to the host calls, bytes in
and bytes out; it keeps these calls, what breaks the law, and the ways in which the law
was met. Where an order is refused that the law wants accepted, the law says nothing:
the trial is then not checked. What several checks look at stands here too.
"""

from dataclasses import dataclass, field

from answers import outcome
from model import (HEADER_BYTES, LARGEST_RECORD, PORES_TYPE, QUALITY_TYPE,
                   VIEW_HEADER_BYTES)
from names import named_view
from orders_plan import numbers_as_bytes
from pairs import bytes_of
from results import judged

KINDS = ("remove", "join", "part", "pairs")
PLACES = ("first place", "middle place", "last place")
# What the edited view has; of law 2 one of the two views.
HELD = ("index", "local quality", "pores")
# Each law in a few words, and the ways in which it has to be met; these are only
# counted. Of law 2 the kinds of the two orders stand in the order of their views.
LAWS = {
    1: ("two removals are one", HELD + (
        "no index", "B by old numbers", "any second list", "A before B", "B before A",
        "A and B mixed", "first line", "last line", "all lines", "A widens w",
        "A narrows w", "B widens w", "B narrows w", "32,768 bytes", "19")),
    2: ("orders on two views commute", HELD + (
        "one finger", "two fingers", "a list of several", "32,768 bytes", "19",
        "19 one way alone") + tuple("%s and %s" % (one, other)
                                    for one in KINDS for other in KINDS)),
    3: ("join and part undo each other", HELD + (
        "join first", "part first", "w not the least", "w the least",
        "a line with itself", "two lines", "lines exchanged", "w wider in between",
        "32,768 bytes")),
    4: ("a view's old bytes decide its new ones", HELD + KINDS + PLACES + (
        "at another byte", "number above 0", "32,768 bytes"))}


@dataclass
class Order:
    """An order on a view: its numbers behind the name, its slices behind the record."""

    call: str
    name: tuple
    numbers: list
    slices: list = field(default_factory=list)


def removal(name, count, lines):
    return Order("remove", name, [count], [numbers_as_bytes(lines)])


def pair_order(call, name, count, pair):
    return Order(call, name, [count, *pair])


def list_order(name, count, listed):
    return Order("pairs", name, [count], [bytes_of(listed)])


@dataclass
class Trial:
    """One trial of a law; `results` are the outcomes of its calls."""

    calls: list = field(default_factory=list)
    results: list = field(default_factory=list)
    ways: set = field(default_factory=set)
    breaks: list = field(default_factory=list)
    checked: bool = False

    def give(self, order, data):
        """What the order comes to on a record's bytes, in ample room."""
        call = order.call, [*order.name, *order.numbers], [data, *order.slices]
        self.calls.append(call)
        self.results.append(outcome(*call))
        return self.results[-1]

    def must(self, holds, what):
        """The law asks for it."""
        self.checked = True
        if not holds:
            self.breaks.append(what)


def same(one, other):
    """Whether two calls have the same outcome, be it bytes or a refusal."""
    return ((one.number, one.place, one.length, one.written)
            == (other.number, other.place, other.length, other.written))


def view_of(data, name):
    """The view of a record's bytes that has this name."""
    return named_view(judged(data), *name)


def held(view):
    """Which of HELD a view has."""
    types = {segment.type for segment in view.segments}
    has = (view.index is not None, QUALITY_TYPE in types, PORES_TYPE in types)
    return {way for way, there in zip(HELD, has) if there}


def longest(result):
    """The bytes of the longest record that an order leaves, at its end or in between; 0
    where it is refused at once."""
    return max([result.length, *(result.walk.lengths if result.walk else ())])


def fills(*lengths):
    """The way of a law in which a record comes to 32,768 bytes."""
    return {"32,768 bytes"} if LARGEST_RECORD in lengths else set()


def view_ends(data):
    """For each view's name where its bytes start and end, by the lengths alone; the
    names come in the order of the views."""
    found, at = {}, HEADER_BYTES
    for _ in range(data[14]):
        end = at + VIEW_HEADER_BYTES + int.from_bytes(data[at + 8:at + 10], "big")
        for _ in ("index", "segments"):
            end += 2 + int.from_bytes(data[end:end + 2], "big")
        found[data[at + 1], data[at]] = at, end
        at = end
    return found


def view_bytes(data, name):
    """All bytes of a view, its header and its lengths too."""
    start, end = view_ends(data)[name]
    return data[start:end]
