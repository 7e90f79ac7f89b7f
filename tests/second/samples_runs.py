"""Runs and their low bytes as assertions, worked out by hand.

samples.py runs these. They show that runs are told by their low bytes as clause 8.4
shows, both ways, and which of them are 29.
"""

from answers import lent, outcome
from runs import bytes_of

# The clause's example: a run and its low bytes.
EXAMPLE = ([60, 276, 277, 333, 581, 797, 860, 986, 1000],
           [60, 20, 21, 77, 69, 29, 92, 218, 232])
RIGHT_RUNS = (([], []), ([0], [0]), ([255], [255]), ([7, 7], [7, 7]),
              ([0, 255], [0, 255]), ([255, 510], [255, 254]), ([1, 256], [1, 0]),
              ([255, 256, 256], [255, 0, 0]), EXAMPLE)
WRONG_RUNS = ([256], [65535], [9, 8], [0, 256], [255, 511], [7, 7, 6], [0, 65535],
              [0, 255, 511], [255, 0], [60, 276, 275])


def runs_by_hand():
    """Runs to their low bytes and back, and those that are 29."""
    for run, low in RIGHT_RUNS:
        there = outcome("low_bytes", [], [bytes_of(run)])
        back = outcome("from_low_bytes", [], [bytes(low)])
        assert (there.number, there.written, there.length) == (0, bytes(low), len(low))
        assert (back.number, back.written, back.length) == (0, bytes_of(run), len(run))
        if run:
            assert lent(there, len(run) - 1).number == 20
            assert lent(back, 2 * len(run) - 1).number == 20
            assert lent(back, 2 * len(run) + 1).written == bytes_of(run)
    for run in WRONG_RUNS:
        assert outcome("low_bytes", [], [bytes_of(run)]).number == 29, run
    for data in (b"\0", b"\0\1\0", b"\1\0\0"):
        assert outcome("low_bytes", [], [data]).number == 29
    for data, number in ((b"\1\0" * 255 + b"\xff", 0), (b"\1\0" * 255 + b"\xff\xfe", 29),
                         (b"\1\0" * 256, 29)):
        found = outcome("from_low_bytes", [], [data])
        assert found.number == number and found.written[-2:] in (b"", b"\xff\xff")
