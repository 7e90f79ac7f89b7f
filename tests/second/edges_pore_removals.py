"""Removals beside pores at the edges, listed one by one and not left to chance.

Views of three lines have pores at every number of bits, alone, several times, and
between local quality, right or not. Pores are broken in each way, before right ones and
behind them. A segment of another type stands before broken pores and behind them, so
that 16 and 26 meet. The other view of the record has segments too, which nobody judges.
"""

from itertools import combinations

from build import build
from edges_pores import EVERY_E, RESOLUTION, plain_lines
from make_pores import packed
from model import MOST_LINES, PORES_TYPE, QUALITY_TYPE, Index, Record, Segment, View
from pores import FIRST_BYTES, Pores, all_ones, longest_step, to_payload

REMOVAL_NAMES = ((2, 0), (4, 0))
LINES = 3
OTHER_TYPES = (0x0000, 0x0001, 0x0002, 0x0005, 0x0104, 0x0403, 0x8004, 0xFFFF)
QUALITY = [Segment(QUALITY_TYPE, b"\x08\x08\x02\x1b"), Segment(QUALITY_TYPE, b"\0\1")]


def removal_record(segments, others, lines=LINES):
    """Views of two fingers with so many lines; the second has the segments, the first
    the others."""
    index = Index(2, [[]] + [[line - 1] for line in range(1, lines)])
    views = [View(0, finger, 0, 80, 16, 16, plain_lines(lines), index, listed)
             for (finger, _), listed in zip(REMOVAL_NAMES, (others, segments))]
    return build(Record(0, 197, 1, 4, 2, 16, 64, 32, views))


def pore_segment(payload):
    return Segment(PORES_TYPE, payload)


def right_payloads():
    """At every e: pores in all lines, in none, in one, and past all ones."""
    found = []
    for e in EVERY_E:
        step = longest_step(e)
        found += [to_payload(Pores(100 * e, e, lines)) for lines in (
            [[1], [step, 1], [2]], [[], [], []], [[], [step + 1], []],
            [[3 * step, 1], [], [2 * step + 1]], [[1] * 9, [2] * 8, [1, 2] * 4])]
    return found


def bad_payloads():
    """Payloads for three lines, broken in each way."""
    right = packed(RESOLUTION, 4, [0, 1, 0, 0, 2])
    rows = ([1, 0, 0, 0], [0, 1, 0, 2], [0, 1, 15, 0, 0], [0, 0, 0, 1, 15],
            [0, 0, 0, 15], [0, 0, 0, 1, 0, 0], [0, 0, 0, 0, 1],
            [0, 1, 0, 2, 0, 1, 0, 1, 0, 1])
    return [b"", right[:2], right[:FIRST_BYTES], right + b"\0", right + b"\x80",
            bytes([0, 200, 1]) + right[FIRST_BYTES:], bytes([0, 200, 9]) + bytes(9),
            *[packed(RESOLUTION, 4, elements) for elements in rows],
            packed(RESOLUTION, 5, [0, 0, 0])[:-1] + b"\1",
            packed(RESOLUTION, 2, [0, 0, 0, 1, 1, 0, 1]),
            packed(RESOLUTION, 3, [0, 0, 0, 0, 1])]


def rows_of_segments():
    """Right rows, broken ones, and those with another type too."""
    good = [pore_segment(payload) for payload in right_payloads()]
    bad = [pore_segment(payload) for payload in bad_payloads()]
    right = [[segment] for segment in good]
    right += [[good[at], QUALITY[0], good[at - 7], QUALITY[1]]
              for at in range(len(good))]
    right += [good[5:9], QUALITY[:1] + good[::6], good[3:4] * 2 + QUALITY, good]
    broken = [[segment] for segment in bad]
    broken += [[good[0], segment] for segment in bad]
    broken += [[segment, good[1]] for segment in bad]
    broken += [[QUALITY[1], good[2], QUALITY[0], segment] for segment in bad]
    types = [Segment(type_, good[0].payload) for type_ in OTHER_TYPES]
    mixed = [[other] for other in types] + [[good[0], other] for other in types]
    for at, segment in enumerate(bad):
        other = types[at % len(types)]
        mixed += [[segment, other], [other, segment], [good[0], other, segment],
                  [segment, QUALITY[0], other, good[0]]]
    return right, broken, mixed


def every_removal():
    """All sets of lines that can be removed from three, as lists."""
    return [list(lines) for size in range(1, LINES + 1)
            for lines in combinations(range(LINES), size)]


def removal_edges():
    """Record, view and lines of every edge: of all right rows every removal, and of the
    others one each from either view. The first ones may not be left out."""
    right, broken, mixed = rows_of_segments()
    other_rows = ([], [Segment(0x0101, b"\7")], [pore_segment(b"\0")])
    one_each = [(removal_record(row, other_rows[at % 3]), REMOVAL_NAMES[1],
                 [at % LINES])
                for at, row in enumerate(broken[:len(broken) // 2] + mixed)]
    others = [(removal_record(row, other_rows[at % 3]), REMOVAL_NAMES[at % 2], lines)
              for at, row in enumerate(right) for lines in every_removal()]
    others += [(removal_record(other_rows[at % 3], row), REMOVAL_NAMES[at % 2],
                [at % LINES]) for at, row in enumerate(broken + mixed)]
    first = [(removal_record(row, []), REMOVAL_NAMES[1], lines)
             for row in right[:5] + right[-4:] for lines in every_removal()]
    return first + one_each + many_removals(), others


def many_removals():
    """1,024 lines with pores in every third: all removed, every second, the first, the
    last, all but one; and the payload of one line more."""
    found = []
    for e, count in ((2, MOST_LINES), (7, MOST_LINES), (3, MOST_LINES + 1)):
        lines = [[1 + line % all_ones(e)] if line % 3 == 0 else []
                 for line in range(count)]
        segment = pore_segment(to_payload(Pores(9, e, lines)))
        data = removal_record([segment], [], MOST_LINES)
        for removed in (range(MOST_LINES), range(0, MOST_LINES, 2),
                        range(1, MOST_LINES), [0], [MOST_LINES - 1]):
            found.append((data, REMOVAL_NAMES[1], list(removed)))
    return found
