"""Document 01's samples P1 to P11, its run-only samples, and those of the requests.

All are assertions. Run it alone; it prints one line when all hold. It shows
that the second program reads document 01 as its own samples do, and that every
fault has the place worked out by hand, every direction the nearest heading, every
name the view worked out by hand, every rule the answer, and local quality, lists of
pairs, pores, cards' objects and runs the bytes, before it judges anything.
"""

from dataclasses import replace

from answers import NAMING, lent, outcome, with_name
from bits import signed
from build import build, index_bytes, parts_of, put_together
from faults import all_faults, base_bytes
from judge import judge
from model import FAULTS, Index, Line, Record, Refusal, Segment, View, least_width
from names import name_of
from samples_card import cards
from samples_names import names_of_views
from samples_pairs import lists_of_pairs
from samples_pore_removals import removals_with_pores
from samples_pores import pores_of_lines
from samples_quality import local_quality
from samples_rules import enrolment_rules
from samples_runs import runs_by_hand
from sheet import to_sheet
from trail import first_heading, rounding, trail

SAMPLE_A = bytes.fromhex(
    "46534B003031300000000038000001C5"
    "08080410402000000002005001000100"
    "00105002850048C00E145002850048C0"
    "0E14000201600000")
# The name of its view, from the view's header: byte 25 the finger, 24 the number.
A_VIEW = [SAMPLE_A[25], SAMPLE_A[24]]

# First headings of request [2], worked out by hand: N, b, and for some directions
# the heading. The number behind a row is 2N divided by 2 to the b.
HEADINGS = (
    (32, 8, {0: 0, 1: 0, 2: 1, 3: 1, 4: 1, 5: 1, 6: 2, 7: 2, 10: 3, 14: 4,  # 0.25
             126: 32, 127: 32, 128: 32, 130: 33, 253: 63, 254: 0, 255: 0}),
    (32, 7, {1: 1, 3: 2, 125: 63, 126: 63, 127: 0}),                        # 0.5
    (64, 8, {1: 1, 3: 2, 253: 127, 254: 127, 255: 0}),                      # 0.5
    (255, 4, {0: 0, 1: 32, 2: 64, 3: 96, 4: 128, 5: 159, 6: 191, 7: 223,    # 31.875
              8: 255, 9: 287, 10: 319, 11: 351, 12: 383, 13: 414, 14: 446,
              15: 478}),
    (255, 8, {1: 2, 63: 126, 64: 128, 65: 129, 128: 255, 192: 383,          # 1.9921875
              255: 508}),
    (1, 4, {0: 0, 3: 0, 4: 1, 8: 1, 11: 1, 12: 0, 15: 0}),                  # 0.125
    (1, 8, {0: 0, 63: 0, 64: 1, 65: 1, 128: 1, 191: 1, 192: 0, 193: 0,      # 0.0078125
            255: 0}))


def number_and_place(data):
    """The refusal of a record's bytes as (number, place); (0, 0) if accepted."""
    try:
        judge(data)
    except Refusal as refusal:
        return refusal.number, refusal.place
    return 0, 0


def plain_line():
    return Line(0, 0, 0, 0, [], 0, 0, 0, 0)


def plain_record(**changes):
    """One view, no lines, no index, no segments."""
    record = Record(0, 100, 8, 8, 4, 16, 64, 32, [View(0, 2, 0, 80, 256, 256)])
    return replace(record, **changes)


def result_of(call, numbers, slices):
    """The bytes an accepted call writes."""
    found = outcome(call, numbers, slices)
    assert found.number == 0, found
    return found.written


def index_block(data):
    return index_bytes(judge(data).views[0].index)


def proved_samples():
    """P1 to P11."""
    assert len(SAMPLE_A) == 56
    assert number_and_place(SAMPLE_A) == (0, 0)                          # P1
    sheet = result_of("read", [], [SAMPLE_A])
    assert len(sheet) == 67
    assert result_of("write", [], [sheet]) == SAMPLE_A
    assert lent(outcome("read", [], [SAMPLE_A]), 66).number == 20
    record = judge(SAMPLE_A)
    assert trail(record.views[0].lines[0], record) == [36]               # P2
    assert result_of("trail", [*A_VIEW, 0], [SAMPLE_A]) == bytes([0, 36])
    first = bytes([0, 0])
    p3 = result_of("remove", [*A_VIEW, 2], [SAMPLE_A, first])            # P3
    assert len(p3) == 48 and index_block(p3) == bytes([1, 0])
    assert outcome("remove", [*A_VIEW, 2], [p3, first]).number == 14     # P4
    assert outcome("join", [*A_VIEW, 2, 0, 1], [SAMPLE_A]).number == 18  # P5
    p5 = result_of("join", [*A_VIEW, 2, 0, 0], [SAMPLE_A])
    assert index_block(p5) == bytes([0x01, 0xB0])
    p6 = build(plain_record())                                           # P6
    assert len(p6) == 38 and number_and_place(p6) == (0, 0)
    p7 = bytearray(p6[:24])                                              # P7
    p7[8:12] = (24).to_bytes(4, "big")
    assert number_and_place(bytes(p7)) == (6, 192)
    for b, number, place in ((3, 5, 136), (4, 0, 0)):                    # P8
        assert number_and_place(build(plain_record(b=b))) == (number, place)
    assert signed(0b1001, 4) == -7                                       # P9
    turning = Line(0, 0, 0, 0, [-8, -7], 0, 0, 0, 0)
    assert trail(turning, plain_record()) == [2 * (64 - 7) + 1]
    assert first_heading(3, 32, 8) == 1                                  # P10
    view = View(0, 2, 0, 80, 256, 256, [plain_line() for _ in range(31)],
                Index(4, [[] for _ in range(30)] + [[15, 0]]))           # P11
    p11 = build(plain_record(views=[view]))
    assert len(index_block(p11)) == 18 and least_width(view.index.neighbours) == 4
    removed = result_of("remove", [*name_of(view), 31], [p11, bytes([0, 15])])
    assert len(index_block(removed)) == 21 and index_block(removed)[0] == 5
    assert judge(removed).views[0].index.neighbours[29] == [0]


def run_only_samples():
    """Quality, lines, c, record size at their limits; empty input."""
    for quality, found in ((100, (0, 0)), (101, (7, 8 * 27))):
        views = [View(0, 2, 0, quality, 0, 0)]
        assert number_and_place(build(plain_record(views=views))) == found
    for lines, found in ((1024, (0, 0)), (1025, (9, 8 * 34 + 1024 * 60))):
        views = [View(0, 2, 0, 80, 0, 0, [plain_line() for _ in range(lines)])]
        parts = parts_of(plain_record(views=views))
        assert number_and_place(put_together(parts)) == found
    for c, found in ((16, (0, 0)), (17, (5, 128))):
        assert number_and_place(build(plain_record(c=c))) == found
    for size, number in ((32768, 0), (32769, 1)):
        views = [View(0, 2, 0, 80, 0, 0, [], None,
                      [Segment(1, bytes(size - 38 - 4))])]
        data = put_together(parts_of(plain_record(views=views)))
        assert len(data) == size and number_and_place(data) == (number, 0)
        if number == 1:
            sheet = to_sheet(plain_record(views=views))
            assert outcome("write", [], [sheet]).number == 19
    assert number_and_place(b"") == (1, 0)
    zero_byte_more = parts_of(judge(SAMPLE_A))
    zero_byte_more.views[0].skeleton += b"\0"
    assert number_and_place(put_together(zero_byte_more)) == (8, 8 * 50)
    assert outcome("remove", [*A_VIEW, 2], [SAMPLE_A, bytes([0, 0, 1])]).number == 15
    for number, length, second, held in ((0, 56, 1, 56), (0, 57, 0, 3), (14, 0, 0, 3)):
        found = outcome("holds", [number, length], [b"old", SAMPLE_A])
        assert (found.number, found.length) == (second, held)


def places():
    """Every fault has its place, in every call on a record, whatever view is named;
    above 12 it is 0."""
    assert number_and_place(base_bytes()) == (0, 0)
    arguments = {"trail": ([0], []), "segment": ([0], []), "quality": ([0], []),
                 "remove": ([1], [bytes([0, 0])]), "join": ([2, 0, 0], []),
                 "part": ([2, 1, 1], []), "set_quality": ([0], [bytes([255, 255, 1])]),
                 "pairs": ([2], [bytes(6)]), "pores": ([0], []),
                 "set_pores": ([0], [bytes(8)]), "card_write": ([0], [])}
    lists = [("read", [], []), ("card_write", [1, 2, 0], []), ("check", [1], []),
             ("check", [2], [])]
    lists += [(call, with_name(call, name, arguments[call][0]), arguments[call][1])
              for call in NAMING for name in ((2, 0), (2, 1), (11, 256))]
    met = set()
    for number, place, fault, data in all_faults():
        met.add((number, fault))
        for call, numbers, more in lists:
            found = outcome(call, numbers, [data] + more)
            assert found.number == number, (found, number)
            assert (found.place, found.fault) == (place, fault), (found, place)
            assert found.length == 0 and found.written == b""
    assert met == {(number, fault) for number in FAULTS for fault in FAULTS[number]}
    places_of_others()


def places_of_others():
    """Numbers above 12 have the place 0; a segment has its payload's first bit."""
    for call, numbers, more, number in (
            ("trail", [2, 2, 0], [], 13), ("trail", [2, 1, 2], [], 15),
            ("segment", [2, 2, 0], [], 13), ("segment", [2, 1, 1], [], 23),
            ("remove", [2, 1, 1], [bytes([0, 0])], 14),
            ("remove", [2, 1, 2], [bytes([0, 0])], 16),
            ("join", [2, 0, 1, 0, 0], [], 17), ("join", [2, 1, 2, 1, 0], [], 18),
            ("part", [2, 1, 2, 0, 0], [], 18),
            ("quality", [2, 2, 0], [], 13), ("quality", [2, 1, 1], [], 23),
            ("quality", [2, 1, 0], [], 24), ("set_quality", [2, 2, 0], [b""], 13),
            ("set_quality", [2, 1, 1], [b""], 23),
            ("set_quality", [2, 1, 0], [b""], 24),
            ("pores", [2, 2, 0], [], 13), ("pores", [2, 1, 1], [], 23),
            ("pores", [2, 1, 0], [], 26), ("set_pores", [2, 2, 0], [b""], 13),
            ("set_pores", [2, 1, 1], [b""], 23), ("set_pores", [2, 1, 0], [b""], 26),
            ("card_write", [2, 2, 1], [], 27), ("card_write", [0, 2, 2], [], 13),
            ("card_write", [1, 2, 1], [], 28), ("check", [0], [], 30)):
        found = outcome(call, numbers, [base_bytes()] + more)
        assert (found.number, found.place) == (number, 0), found
    found = outcome("segment", [2, 1, 0], [base_bytes()])
    assert (found.number, found.place, found.length) == (0, 8 * 83, 2)


def nearest_headings(half_turn, b):
    """The first heading of every direction in turn, by comparing distances.

    A heading is left for the next one as soon as that is no farther off; so
    halves go upwards. Distances are counted in parts of 2 to the b.
    """
    heading, found = 0, []
    for direction in range(1 << b):
        at = direction * 2 * half_turn
        while abs(((heading + 1) << b) - at) <= abs((heading << b) - at):
            heading += 1
        found.append(0 if heading == 2 * half_turn else heading)
    return found


def headings():
    """Request [2]: the nearest heading, halves upwards, then modulo 2N."""
    for half_turn, b, by_hand in HEADINGS:
        for direction, heading in by_hand.items():
            found = first_heading(direction, half_turn, b)
            assert found == heading, (half_turn, b, direction, found)
    for b in range(4, 9):
        for half_turn in range(1, 256):
            found = [first_heading(direction, half_turn, b)
                     for direction in range(1 << b)]
            assert found == nearest_headings(half_turn, b), (half_turn, b)
    for direction, way in ((1, "down"), (2, "half"), (3, "up"), (4, "exact"),
                           (253, "down"), (254, "full turn"), (255, "full turn")):
        assert rounding(direction, 32, 8) == way, (direction, way)
    for direction, elements in ((3, [3, 7]), (255, [1, 5])):
        line = Line(0, direction, 0, 0, [-8, 0, 2], 0, 0, 0, 0)
        assert trail(line, plain_record()) == elements


if __name__ == "__main__":
    proved_samples()
    run_only_samples()
    places()
    headings()
    local_quality(SAMPLE_A)
    lists_of_pairs(SAMPLE_A)
    names_of_views(SAMPLE_A)
    pores_of_lines()
    removals_with_pores(SAMPLE_A)
    cards()
    runs_by_hand()
    enrolment_rules(SAMPLE_A)
    print("samples: P1 to P11, the run-only samples, %d places, the headings, local"
          " quality, lists of pairs, names of views, pores, cards, runs and rules hold"
          % len(all_faults()))
