"""The enrolment rules of request [10], and what the check of a record answers.

A rule is a row of one table: its number, and the least b that it accepts. Clause 6.1.4
of document 000 permits 16 directions, which take 4 bits, and recommends 64, which take
6. A check judges the rule's number (30), then the record (1 to 12, with their places),
then b (31). It writes nothing.
"""

from model import FAR_RULES, LARGEST_RECORD, MOST_VIEWS, refusing
from results import Outcome, record_of

# Of each rule the least b.
RULES = {1: 4, 2: 6}
LARGEST_B = 8
# Besides b, what is told apart among records that a rule accepts; it is only counted.
HELD = ("no lines", "lines", "255 views", "32,768 bytes")

# 30 where there is no such rule; 31 where b is below the least.
must_be_rule = refusing(30)
must_reach = refusing(31)


def number_fault(rule):
    """What a number that is no rule could be mistaken for."""
    if rule in FAR_RULES:
        return "rule %d" % rule
    if rule % 65536 in RULES:
        return "low half of a rule"
    return "low byte of a rule" if rule % 256 in RULES else "another rule"


def ways_under(rule):
    """The ways in which a rule can accept a record."""
    return tuple("b %d" % b for b in range(RULES[rule], LARGEST_B + 1)) + HELD


def ways_of(record, length):
    """In which of the ways a record of so many bytes is accepted."""
    yield "b %d" % record.b
    yield "lines" if any(view.lines for view in record.views) else "no lines"
    if len(record.views) == MOST_VIEWS:
        yield "255 views"
    if length == LARGEST_RECORD:
        yield "32,768 bytes"


def check(rule, data):
    """30, then the record's own numbers, then 31; accepted, the length is 0."""
    must_be_rule(rule in RULES, number_fault(rule))
    record = record_of(data)
    must_reach(record.b >= RULES[rule], "b %d" % record.b)
    return Outcome(0, ways=tuple(ways_of(record, len(data))))
