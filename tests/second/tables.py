"""What the cases of each call have to meet, and tables of how often they did.

Seven things are counted: the numbers that a call gives; the faults behind them,
which are what the place of 2 to 12 points at, the rule that 24 to 31 tells of,
whether 16 stands before bad pores, or where in its list an order stands that is
refused; the ways in which a call was accepted, of which it can have several at once;
behind which orders pores were read; what the names of views were like, in calls
that were accepted and in those that 13 refused; the ways in which the laws of
request [8] were met, where the calls chosen have them; and which of two numbers of
requests [9] and [10] was given. Most calls have one row each; those with a card's size
have one for each size, and the check one for each rule (tables_rows.py).
"""

from collections import Counter

import pores
import pores_ways
import quality
import tables_card
import tables_rules
from answers import NAMING, ORDERS, name_passed
from model import (FAULTS, LIST_FAULTS, OF_A_RECORD, OTHER_TYPE_FAULTS, PORE_FAULTS,
                   QUALITY_FAULTS)
from names import RIGHT_NAMES, WRONG_NAMES, right_kinds, wrong_kinds
from pairs import LISTS, PAIR_FAULTS
from results import judged
from tables_laws import law_table, laws_to_meet
from tables_rows import (all_rows, before_missing, before_table, own_fault_table, row_of,
                         rows_of)
from trail import ROUNDINGS

ON_A_RECORD = set(OF_A_RECORD)
MUST_MEET = {
    "read": {0, 20} | ON_A_RECORD,
    "write": {0, 19, 20, 21, 22},
    "trail": {0, 13, 15, 20} | ON_A_RECORD,
    "segment": {0, 13, 23} | ON_A_RECORD,
    "remove": {0, 13, 14, 15, 16, 19, 20, 26} | ON_A_RECORD,
    "join": {0, 13, 14, 15, 17, 18, 19, 20} | ON_A_RECORD,
    "part": {0, 13, 14, 15, 17, 18, 19, 20} | ON_A_RECORD,
    "holds": {0, 1},
    "quality": {0, 13, 20, 23, 24} | ON_A_RECORD,
    "set_quality": {0, 13, 19, 20, 23, 24} | ON_A_RECORD,
    "pairs": {0, 13, 14, 15, 17, 18, 19, 20, 25} | ON_A_RECORD,
    "pores": {0, 13, 20, 23, 26} | ON_A_RECORD,
    "set_pores": {0, 13, 19, 20, 23, 26} | ON_A_RECORD,
    **tables_card.MUST_MEET, **tables_rules.MUST_MEET,
}
NUMBERS = range(32)
# The faults that a call alone tells apart; a removal meets no pores of another type.
FAULTS_OF = {"quality": {24: quality.PAYLOAD_FAULTS},
             "set_quality": {24: quality.VALUE_FAULTS},
             "pores": {26: pores.PAYLOAD_FAULTS},
             "set_pores": {26: pores.NUMBER_FAULTS},
             "remove": {16: OTHER_TYPE_FAULTS, 26: tuple(
                 fault for fault in pores.PAYLOAD_FAULTS if fault != "type")},
             "pairs": {**PAIR_FAULTS, 25: LIST_FAULTS},
             **tables_card.FAULTS_OF, **tables_rules.FAULTS_OF}
# What is told apart among accepted cases of a call, and in which ways; of cards and runs
# also where the room is one element short.
WAYS = {"trail": ("first heading rounded", ROUNDINGS),
        "remove": ("segments in a removal", quality.CARRIED + pores_ways.REMOVALS),
        "quality": ("payload read", quality.READINGS),
        "set_quality": ("payload rewritten", quality.REWRITINGS),
        "pairs": ("list accepted", LISTS),
        "pores": ("pores read", pores_ways.READINGS),
        "set_pores": ("pores rewritten", pores_ways.REWRITINGS),
        **tables_card.WAYS, **tables_rules.WAYS}
# Which number has to come before which other that applies too.
BEFORE = {**tables_card.BEFORE, **tables_rules.BEFORE}
# An order behind which pores were read that it left in its view.
MOVED_UP = "remove, pores moved up"
# What is told apart among names of views: in accepted cases, in accepted orders on the
# record that an order before left, and in cases that 13 refuses.
FOLLOWING = ("after an order on this view", "after one on the same finger",
             "after one on another finger")
NAMING_ROWS = [row for call in NAMING for row in rows_of(call) if 13 in MUST_MEET[row]]
NAMES = (("view named", RIGHT_NAMES, NAMING_ROWS),
         ("order in a sequence", FOLLOWING, ORDERS),
         ("no view named", WRONG_NAMES, NAMING_ROWS))


def following(name, before):
    """Which of the FOLLOWING a name is behind an order on the view named before."""
    if name == before:
        return FOLLOWING[0]
    return FOLLOWING[1] if name[0] == before[0] else FOLLOWING[2]


class Met:
    """How often each thing was met in the cases so far. The last accepted order is
    kept."""

    def __init__(self):
        self.numbers, self.ways, self.names = Counter(), Counter(), Counter()
        self.behind, self.order, self.laws = Counter(), None, Counter()
        self.before = Counter()

    def add(self, case):
        """Counts a case."""
        expected, row = case.expected, row_of(case)
        self.numbers[row, expected.number, expected.fault] += 1
        self.ways.update((row, way) for way in expected.ways)
        self.laws.update(case.laws)
        self.before.update((row, pair) for pair in case.before)
        if case.call in NAMING:
            self.names.update((row, kind) for kind in self.kinds_of_name(case))
        if case.call == "pores" and expected.number == 0:
            self.behind.update(self.orders_behind(case))
        if case.call in ORDERS and expected.number == 0:
            self.order = case

    def is_left(self, record):
        """Whether a record is what the last accepted order left."""
        return self.order is not None and record == self.order.expected.written

    @staticmethod
    def named(case):
        """The name of the view that a case is about."""
        return name_passed(case.call, case.numbers)

    def orders_behind(self, case):
        """Behind which order pores were read that it left in its view, if any."""
        if self.is_left(case.slices[0]) and self.named(case) == self.named(self.order):
            yield self.order.call
            if "pores moved up" in self.order.expected.ways:
                yield MOVED_UP

    def kinds_of_name(self, case):
        """What the name in a case is like, where it was accepted or refused with 13."""
        name, record = self.named(case), judged(case.slices[0])
        if case.expected.number == 13:
            yield from wrong_kinds(record, *name)
        if case.expected.number == 0:
            yield from right_kinds(record, *name)
            if case.call in ORDERS and self.is_left(case.slices[0]):
                yield following(name, self.named(self.order))


def faults_of(row, number):
    """The faults that are told apart where a row has a number."""
    return FAULTS_OF.get(row, {}).get(number) or FAULTS.get(number, ("",))


def orders_to_read_behind(calls):
    """The orders among the calls, and the removal that moves pores up, where pores are
    read too."""
    found = [call for call in calls if call in ORDERS] if "pores" in calls else []
    return found + ([MOVED_UP] if "remove" in found else [])


def never_met(met, calls):
    """What the calls can meet and never met, as texts."""
    rows = all_rows(calls)
    wanted = [(row, number, fault) for row in rows for number in sorted(MUST_MEET[row])
              for fault in faults_of(row, number)]
    missing = ["%s gives %d %s" % each for each in wanted if met.numbers[each] == 0]
    for row in rows:
        what, known = WAYS.get(row, ("", ()))
        missing += ["%s, %s: %s" % (row, what, way) for way in known
                    if met.ways[row, way] == 0]
        missing += ["%s, %s: %s" % (row, what, kind)
                    for what, known, naming in NAMES if row in naming
                    for kind in known if met.names[row, kind] == 0]
    missing += before_missing(met, rows, BEFORE)
    missing += ["law %d: %s" % each for each in laws_to_meet(calls)
                if met.laws[each] == 0]
    return missing + ["pores, read behind: %s" % order
                      for order in orders_to_read_behind(calls)
                      if met.behind[order] == 0]


def number_table(met, rows):
    """How often each number was given, as text."""
    numbers = Counter()
    for (row, number, _), times in met.numbers.items():
        numbers[row, number] += times
    lines = ["%-15s" % "call" + "".join("%6d" % number for number in NUMBERS)]
    for row in rows:
        lines.append("%-15s" % row + "".join(
            "%6s" % (numbers[row, number] or ".") for number in NUMBERS))
    return "\n".join(lines)


def fault_table(met, rows):
    """How often each call on a record met each fault, as text."""
    rows = [row for row in rows if ON_A_RECORD <= MUST_MEET[row]]
    lines = ["%-28s" % "fault" + "".join("%13s" % row for row in rows)]
    for number, faults in (*FAULTS.items(), (16, OTHER_TYPE_FAULTS),
                           (24, QUALITY_FAULTS), (26, sum(PORE_FAULTS, ()))):
        if not any(number in MUST_MEET[row] for row in rows):
            continue
        for fault in faults:
            lines.append("%2d %-25s" % (number, fault) + "".join(
                "%13s" % (met.numbers[row, number, fault] or ".") for row in rows))
    return "\n".join(lines)


def list_table(met, calls):
    """How often lists of pairs were refused in each way, as text."""
    if "pairs" not in calls:
        return ""
    lines = ["%-28s%12s" % ("list refused", "pairs")]
    for number, faults in FAULTS_OF["pairs"].items():
        lines += ["%2d %-25s%12s" % (number, fault,
                                     met.numbers["pairs", number, fault] or ".")
                  for fault in faults]
    return "\n".join(lines)


def way_tables(met, rows):
    """How often each call was accepted in each of its ways, as text."""
    lines = []
    for row in rows:
        what, known = WAYS.get(row, ("", ()))
        if known:
            lines.append("%-28s%15s" % (what, row))
        lines += ["   %-25s%15s" % (way, met.ways[row, way] or ".") for way in known]
    return "\n".join(lines)


def behind_table(met, calls):
    """How often pores were read behind each order, as text."""
    found = orders_to_read_behind(calls)
    if not found:
        return ""
    return "\n".join(["%-28s%12s" % ("read behind", "pores")] + [
        "   %-25s%12s" % (order, met.behind[order] or ".") for order in found])


def name_tables(met, rows):
    """How often each call met each kind of name, as text."""
    lines = []
    for what, known, naming in NAMES:
        chosen = [row for row in rows if row in naming]
        if chosen:
            lines.append("%-33s" % what + "".join("%13s" % row for row in chosen))
            lines += ["   %-30s" % kind + "".join(
                "%13s" % (met.names[row, kind] or ".") for row in chosen)
                      for kind in known]
    return "\n".join(lines)


def all_tables(met, calls):
    """The tables that have something to tell, one after another."""
    rows = all_rows(calls)
    tables = [number_table(met, rows), fault_table(met, rows), list_table(met, calls),
              *(own_fault_table(met, rows, title, of.NUMBERS, of.FAULTS_OF)
                for title, of in (("card", tables_card), ("rule", tables_rules))),
              way_tables(met, rows), behind_table(met, calls), name_tables(met, rows),
              before_table(met, rows, BEFORE), law_table(met, calls)]
    return "\n".join(table for table in tables if table)
