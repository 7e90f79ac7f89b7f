"""Checks by the rules of request [10], and which number is given where two apply.

30 comes before all others, also where rule 2 would accept the record. 1 to 12 come
before 31. That 31 is what a record would be given without its fault is shown by the
right record that it was made from: this has the same b, and is 31 under rule 2.
"""

from dataclasses import replace

from answers import outcome
from build import parts_of, put_together
from edges import empty_view_record
from faults import low_twins
from lend import lend, marked
from make import fill
from model import FAR_RULES, LARGEST_RECORD, OF_A_RECORD
from rules import RULES

STRICT = 2
# The header byte that has b, and the b that rule 2 alone refuses.
B_AT = 17
LOW = range(RULES[1], RULES[STRICT])
# Numbers that are no rule: those that are told apart, some whose low byte or low half
# alone is a rule, and others.
NO_RULES = FAR_RULES + (4, 77, 513, 514, 131073, 131074, (1 << 31) + 2)
# Lengths at which a record is too short; from 18 bytes on it has b.
SHORT = (0, 1, 17, 18, 23)

# Which number comes before which: under rule 2, and where there is no such rule; 0 is
# given otherwise.
RULE_BEFORE = tuple((number, 31) for number in OF_A_RECORD)
NO_RULE_BEFORE = tuple((30, number) for number in (0, *OF_A_RECORD, 31))


def has_low_b(data):
    """Whether byte 17 is there, and rule 2 alone refuses it."""
    return len(data) > B_AT and data[B_AT] in LOW


def check_case(rng, rule, data, of_right=False):
    """The check of a record. A number that is no rule comes before what rule 2 gives;
    that of a fault comes before 31, where it was put into a right record."""
    case = lend(rng, "check", [rule], [data])
    if rule not in RULES:
        return marked(case, 30, outcome("check", [STRICT], [data]).number)
    number = case.expected.number
    if of_right and rule == STRICT and number in OF_A_RECORD and has_low_b(data):
        return marked(case, number, 31)
    return case


def checks(rng, data, no_rule, of_right=False):
    """The checks of a record by each rule, and by a number that is none."""
    return [check_case(rng, rule, data, of_right) for rule in (*RULES, no_rule)]


def empty_view(b, size=None):
    """The bytes of a record with one view without lines, filled up to a size."""
    record = replace(empty_view_record(), b=b)
    return put_together(parts_of(fill(record, size) if size else record))


def wrong_sizes():
    """Too few bytes and too many, at each b that is low, at 0 and at the largest."""
    return [data for b in (*LOW, 0, 8)
            for data in (*(empty_view(b)[:size] for size in SHORT),
                         empty_view(b, LARGEST_RECORD + 1))]


def twins_hold():
    """Whether the right records that the faults were put into, and those that are cut or
    made too long, are 31 under rule 2, and accepted under rule 1."""
    right = low_twins() + [empty_view(b, size) for b in LOW
                           for size in (None, LARGEST_RECORD)]
    return all([outcome("check", [rule], [data]).number for rule in RULES] == [0, 31]
               for data in right)
