"""Plans the cases of the check of request [10].

First come the edges: right records at every b, under each rule and under numbers that
are none; too few bytes and too many; every fault, at a high b and at a low one. Then
come records as for reading, and records with b 4 or 5, right and damaged, in turns.
"""

from dataclasses import replace
from itertools import cycle

from build import build
from damage import KINDS, damaged
from edges import heading_record
from edges_names import ALL_FINGERS, names_record
from faults import all_faults, low_faults
from make import fill, random_header, random_record
from model import FAR_RULES, LARGEST_RECORD
from rules import LARGEST_B, RULES
from rules_before import (LOW, NO_RULES, STRICT, check_case, checks, empty_view,
                          twins_hold, wrong_sizes)


def right_records(b):
    """Records at one b: no lines; lines whose directions go round the turn, also in
    32,768 bytes; 255 views."""
    return [empty_view(b), *(build(record) for record in (
        heading_record(32, b), replace(names_record(ALL_FINGERS), b=b),
        fill(heading_record(32, b), LARGEST_RECORD)))]


def check_edges(rng):
    """All edges of the check."""
    assert twins_hold()
    no_rules = cycle(NO_RULES)
    for b in range(RULES[1], LARGEST_B + 1):
        first, *others = right_records(b)
        for rule in (*RULES, *NO_RULES):
            yield check_case(rng, rule, first)
        for data in others:
            yield from checks(rng, data, next(no_rules))
    faults = [data for _, _, _, data in all_faults() + low_faults()]
    for data in wrong_sizes() + faults:
        yield from checks(rng, data, next(no_rules), True)


def any_rule(rng):
    """A rule, mostly; else a number that is one but for higher bits, or any other."""
    rule = rng.choice((1, STRICT, STRICT))
    if rng.random() < 0.85:
        return rule
    return rng.choice((rule + (1 << rng.randrange(2, 32)), rng.choice(FAR_RULES),
                       rule + (rng.randrange(1, 1 << 24) << 8),
                       rule + (rng.randrange(1, 1 << 16) << 16),
                       rng.randrange(3, 1 << 32)))


def low_case(rng, kinds):
    """The check of a record with a low b, or of the same damaged."""
    size = rng.choices(("tiny", "small", "middle", "fingers"), (40, 45, 10, 5))[0]
    record = random_record(rng, size, 0.5, replace(random_header(rng), b=rng.choice(LOW)))
    is_right = rng.random() < 0.3
    data = build(record) if is_right else damaged(rng, record, next(kinds))
    return check_case(rng, any_rule(rng), data, True)


def check_stream(rng, source):
    """The edges; then in turns a record of the source, and one with a low b."""
    yield from check_edges(rng)
    kinds = cycle(KINDS)
    for data in source:
        yield check_case(rng, any_rule(rng), data)
        yield low_case(rng, kinds)
