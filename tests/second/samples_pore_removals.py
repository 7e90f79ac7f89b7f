"""What a removal leaves of pores, as assertions: records worked out by hand.

samples.py runs these on sample A. Each removal drops the pores of its lines from every
segment and keeps the others, local quality stays, and 16 comes before 26; joins and
parts leave all segments as they are.
"""

from dataclasses import replace

from answers import lent, outcome
from build import build
from judge import judge
from model import Segment
from pores import bytes_of
from vectors_pores import pores_samples

# The name of sample A's view, and its first segment.
VIEW = [2, 0]
SEGMENT = [*VIEW, 0]


def sample_a_with(sample_a, segments):
    """Sample A with these segments."""
    record = judge(sample_a)
    return build(replace(record, views=[replace(record.views[0], segments=segments)]))


def removed_from_a(sample_a):
    """Sample A with the pores 1 14 2 and 15: each removal leaves the other line's."""
    segment = bytes.fromhex("0004 000B 00C8 04  01 E2 0F 10")
    data = sample_a_with(sample_a, [Segment(4, segment[4:])])
    assert data == sample_a[:11] + b"\x43" + sample_a[12:54] + b"\0\x0B" + segment
    p3 = outcome("remove", [*VIEW, 2], [sample_a, b"\0\0"]).written
    for lines, text, size, listed in (
            ("0000", "0004 0009 00C8 04  0F 10", 57, [200, 4, 1, 15]),
            ("0001", "0004 0009 00C8 04  01 E2", 57, [200, 4, 3, 1, 14, 2]),
            ("0000 0001", "0004 0007 00C8 04", 46, [200, 4])):
        left = bytes.fromhex(text)
        removed = outcome("remove", [*VIEW, 2], [data, bytes.fromhex(lines)])
        assert (removed.number, removed.place, removed.length) == (0, 0, size)
        assert removed.written[-2 - len(left):] == bytes([0, len(left)]) + left
        if size == 57:
            assert removed.written == p3[:11] + b"\x39" + p3[12:46] + b"\0\x09" + left
        assert outcome("pores", SEGMENT, [removed.written]).written == bytes_of(listed)
        assert lent(removed, size - 1).number == 20
    joined = outcome("join", [*VIEW, 2, 0, 0], [data]).written
    p5 = outcome("join", [*VIEW, 2, 0, 0], [sample_a]).written
    assert joined == p5[:11] + b"\x43" + p5[12:54] + b"\0\x0B" + segment


def several_in_a(sample_a):
    """All pores of a view go with their line; local quality between them stays. One
    that cannot be read gives 26, wherever it stands, and another type 16 before it."""
    good = [Segment(4, bytes.fromhex("00C8 04  01 E2 0F 10")), Segment(3, b"\0\1"),
            Segment(4, bytes.fromhex("0001 02  10")),
            Segment(4, bytes.fromhex("0002 08  00 00 07"))]
    data = sample_a_with(sample_a, good)
    removed = outcome("remove", [*VIEW, 2], [data, b"\0\0"])
    left = judge(removed.written).views[0].segments
    assert [segment.payload.hex() for segment in left] == [
        "00c8040f10", "0001", "00010200", "0002080007"]
    bad, other = Segment(4, b"\0\1\4\0\1\0"), Segment(5, b"")
    for segments, number in (
            ([bad], 26), (good + [bad], 26), ([bad] + good, 26), ([bad, other], 16),
            ([other, bad], 16), (good + [other], 16), ([bad] + good + [other], 16)):
        data = sample_a_with(sample_a, segments)
        for lines, found in ((b"\0\0", number), (b"\0\1", number), (b"\0\2", 15)):
            answer = lent(outcome("remove", [*VIEW, 2], [data, lines]), 0)
            assert (answer.number, answer.place) == (found, 0), segments
        assert outcome("remove", [*VIEW, 1], [data, b"\0\0"]).number == 14
        for call, more in (("join", [0, 0]), ("part", [1, 0])):
            new = outcome(call, [*VIEW, 2] + more, [data])
            assert new.number == 0 and new.written.endswith(data[56:])


def removed_from_vectors():
    """Of the samples of crates/vectors one comes of another by a removal; of the broken
    ones no line can be removed, and none beside other types."""
    samples = pores_samples()
    found = outcome("remove", [4, 0, 3], [samples["pores-before"], b"\0\1"])
    assert found.written == samples["pores-after"]
    for name, finger, number in (("pores-broken", 2, 26), ("pores-padding", 2, 26),
                                 ("pores-mixed", 8, 16)):
        found = outcome("remove", [finger, 0, 2], [samples[name], b"\0\0"])
        assert found.number == number


def removals_with_pores(sample_a):
    """All of them."""
    removed_from_a(sample_a)
    several_in_a(sample_a)
    removed_from_vectors()
