"""The rows of the tables, and the tables of calls that have several; part of tables.py.

Most calls have one row. Those with a card's size have one for each size, and the check
one for each rule; besides, one for numbers that are none of these. Which faults are
theirs alone, and which number has to come before which, tables_card.py and
tables_rules.py say.
"""

from answers import SIZED
from card import SETS
from model import FAULTS
from rules import RULES

# Of each call that has several rows, the numbers that come first among those passed.
FIRST_NUMBERS = {**dict.fromkeys(SIZED, tuple(range(len(SETS)))), "check": tuple(RULES)}
NONE = "-"


def row_named(call, first):
    """The row of a call for one of its first numbers, or for those that are none."""
    return "%s %s" % (call, first)


def rows_of(call):
    """The rows that a call has in the tables."""
    if call not in FIRST_NUMBERS:
        return [call]
    return [row_named(call, first) for first in (*FIRST_NUMBERS[call], NONE)]


def all_rows(calls):
    """The rows of all these calls."""
    return [row for call in calls for row in rows_of(call)]


def row_of(case):
    """The row in which a case is counted."""
    if case.call not in FIRST_NUMBERS:
        return case.call
    first = case.numbers[0]
    return row_named(case.call, first if first in FIRST_NUMBERS[case.call] else NONE)


def own_fault_table(met, rows, title, numbers, faults_of):
    """How often the faults behind these numbers were met, as text, in those of the rows
    that have faults of their own."""
    rows = [row for row in rows if row in faults_of]
    lines = ["%-28s" % title + "".join("%15s" % row for row in rows)] if rows else []
    for number in numbers if rows else ():
        known = FAULTS.get(number) or dict.fromkeys(
            fault for row in rows for fault in faults_of[row].get(number, ()))
        lines += ["%2d %-25s" % (number, fault) + "".join(
            "%15s" % (met.numbers[row, number, fault] or ".") for row in rows)
                  for fault in known]
    return "\n".join(lines)


def before_missing(met, rows, before):
    """Which number never came before which, as texts."""
    return ["%s gives %d before %d" % (row, *pair) for row in rows
            for pair in before.get(row, ()) if met.before[row, pair] == 0]


def before_table(met, rows, before):
    """How often each number came before each other that applied too, as text."""
    lines = []
    for row in rows:
        if row in before:
            lines.append("%-28s%15s" % ("number before number", row))
        lines += ["   %-25s%15s" % ("%d before %d" % pair, met.before[row, pair] or ".")
                  for pair in before.get(row, ())]
    return "\n".join(lines)
