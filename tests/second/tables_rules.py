"""What the cases of request [10] have to meet; part of tables.py.

The check has a row for each rule, and one for numbers that are no rule.
"""

from model import B_FAULTS, OF_A_RECORD, RULE_FAULTS
from rules import RULES, ways_under
from rules_before import NO_RULE_BEFORE, RULE_BEFORE
from tables_rows import NONE, row_named

# The numbers that have faults of their own.
NUMBERS = (30, 31)
ROWS = {rule: row_named("check", rule) for rule in RULES}
NO_RULE = row_named("check", NONE)
# Rule 1 accepts every b that a record may have, so that it never gives 31.
OF_B = {1: {}, 2: {31: B_FAULTS}}

MUST_MEET = {NO_RULE: {30}, **{ROWS[rule]: {0, *OF_A_RECORD, *OF_B[rule]}
                               for rule in RULES}}
FAULTS_OF = {NO_RULE: {30: RULE_FAULTS}, **{ROWS[rule]: OF_B[rule] for rule in RULES}}
WAYS = {ROWS[rule]: ("record checked", ways_under(rule)) for rule in RULES}
# Which number has to come before which other that applies too.
BEFORE = {NO_RULE: NO_RULE_BEFORE, ROWS[2]: RULE_BEFORE}
