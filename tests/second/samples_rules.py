"""Checks by the enrolment rules as assertions, worked out by hand.

samples.py runs these. They show with which number and place each rule answers sample A
at every b, records that are refused, and rule numbers that are none; then, over many
records, that what passes rule 2 passes rule 1, that rule 1 answers as reading does, and
that an accepted order leaves a record which every rule answers as before.
"""

import random

from answers import outcome
from build import build
from edges import edge_records
from faults import low_faults
from laws_make import fitting_order, law_record
from laws_trial import KINDS
from make import random_record

NO_RULES = (0, 3, 4, 255, 256, 257, 258, 65536, 65537, 65538, 2147483648, 2147483649,
            2147483650, 4294967295)

# Sample A with its b and its skeleton block left open, and the block at each b: twice
# 01, a quarter of the turn, 00001010, 00010100; 00000001, 0010; 00, three quarters,
# 00001110, 00010100. A line has 56, 58, 60, 62 and 64 bits.
SAMPLE = ("46534B00 30313000 %08X 0000 01 C5 08 %02X 04 10 40 20 0000"
          "00 02 00 50 0100 0100 %04X %s 0002 0160 0000")
SKELETONS = {4: "5028 5004 8C0E 14  5028 5004 8C0E 14",
             5: "5014 2802 4603 8514 050A 0091 80E1 40",
             6: "500A 1401 2300 E145 00A1 4012 300E 14",
             7: "5005 0A00 9180 3851 4014 2802 4600 E140",
             8: "5002 8500 48C0 0E14  5002 8500 48C0 0E14"}
# P6 with its b left open, and P7, which is its header alone.
P6 = ("46534B00 30313000 00000026 0000 01 64 08 %02X 04 10 40 20 0000"
      "00 02 00 50 0100 0100 0000 0000 0000")
P7 = "46534B00 30313000 00000018 0000 01 64 08 %02X 04 10 40 20 0000"


def sample_at(b, after=""):
    """Sample A at a b, and bytes after it, which its stated length counts."""
    block, more = bytes.fromhex(SKELETONS[b]), bytes.fromhex(after)
    return bytes.fromhex(SAMPLE % (40 + len(block) + len(more), b, len(block),
                                   block.hex())) + more


def answer(rule, data):
    """Number and place of a check, which writes nothing."""
    found = outcome("check", [rule], [data])
    assert (found.length, found.written) == (0, b""), found
    return found.number, found.place


def must_answer(data, one, two):
    """Rules 1 and 2 answer so, and whatever is no rule 30."""
    assert [answer(1, data), answer(2, data)] == [one, two], data[:64].hex()
    for rule in NO_RULES:
        assert answer(rule, data) == (30, 0), rule


def by_hand(sample_a):
    """Sample A and P6 at every b, P7, and bytes that are too few."""
    assert sample_at(8) == sample_a
    for b, size in ((4, 54), (5, 55), (6, 55), (7, 56), (8, 56)):
        assert len(sample_at(b)) == size
        must_answer(sample_at(b), (0, 0), (31, 0) if b < 6 else (0, 0))
        must_answer(sample_at(b, "00"), (12, 8 * size), (12, 8 * size))
        must_answer(bytes.fromhex(P7 % b), (6, 192), (6, 192))            # P7
    for b in range(256):                                                  # P6, P8
        expected = (0, 0) if 4 <= b <= 8 else (5, 136)
        must_answer(bytes.fromhex(P6 % b), expected,
                    (31, 0) if b in (4, 5) else expected)
    for b in (0, 4, 5, 8):
        for size in (0, 1, 17, 18, 23):
            must_answer(bytes.fromhex(P6 % b)[:size], (1, 0), (1, 0))


def with_faults():
    """Every fault at b = 4 has its number and its place, and is not 31; so have, at
    b = 5, the header fields before b and behind it."""
    for number, place, _, data in low_faults():
        assert data[17] == 4
        must_answer(data, (number, place), (number, place))
    for at, place in ((16, 128), (18, 144), (22, 176)):
        data = bytearray(sample_at(5))
        data[at] = 255
        must_answer(bytes(data), (5, place), (5, place))


def as_reading(rng):
    """What passes rule 2 passes rule 1; rule 1 has the number and place of reading; and
    rule 2 has another one only where it is 31, which is where b is below 6."""
    first, others = edge_records()
    records = first + rng.sample(others, 300)
    records += [build(random_record(rng, "small")) for _ in range(200)]
    met = set()
    for data in records:
        read, one, two = outcome("read", [], [data]), answer(1, data), answer(2, data)
        assert one == (read.number, read.place)
        assert two != (0, 0) or one == (0, 0)
        assert two == ((31, 0) if one == (0, 0) and data[17] < 6 else one)
        met.add((one[0], two[0]))
    assert met == {(0, 0), (0, 31), *((number, number) for number in range(1, 13))}


def orders_change_nothing(rng):
    """An accepted order leaves a record that every rule answers as before."""
    met = set()
    for turn in range(200):
        record, call = law_record(rng, 1 + turn % 3), KINDS[turn % len(KINDS)]
        order = fitting_order(rng, call, rng.choice(record.views))
        old = build(record)
        found = outcome(call, [*order.name, *order.numbers], [old, *order.slices])
        if found.number == 0:
            answers = [[answer(rule, data) for rule in (0, 1, 2, 3)]
                       for data in (old, found.written)]
            assert answers[0] == answers[1], (call, answers)
            met.add((call, answers[0][2][0]))
    assert met == {(call, number) for call in KINDS for number in (0, 31)}


def enrolment_rules(sample_a):
    """All of them."""
    rng = random.Random("enrolment rules")
    by_hand(sample_a)
    with_faults()
    as_reading(rng)
    orders_change_nothing(rng)
