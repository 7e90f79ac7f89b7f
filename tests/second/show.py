"""Shows one case of a case file, with its bytes in hexadecimal.

    python3 tests/second/show.py FILE INDEX

For looking at a case that the replay host calls wrong; INDEX counts from 0.
Of a long slice the first bytes are shown.
"""

import struct
import sys

from answers import CALLS, NAMING, with_name

# The numbers that a call takes besides the finger and number of a view, or at all.
NUMBERS = {"trail": ("line",), "segment": ("segment",), "quality": ("segment",),
           "set_quality": ("segment",), "pores": ("segment",),
           "set_pores": ("segment",), "remove": ("count",), "pairs": ("count",),
           "join": ("count", "line", "other line"),
           "part": ("count", "line", "other line"), "holds": ("number", "length"),
           "card_read": ("size",), "card_write": ("size",), "check": ("rule",)}
MOST_SHOWN = 1024
BYTES_IN_A_ROW = 32


class Taker:
    """Takes the fields of a case file one after another."""

    def __init__(self, data):
        self.data = data
        self.at = 0

    def number(self, form):
        value, = struct.unpack_from(">" + form, self.data, self.at)
        self.at += struct.calcsize(">" + form)
        return value

    def bytes(self):
        size = self.number("I")
        self.at += size
        return self.data[self.at - size:self.at]


def numbers_of(call):
    """What the numbers that a call takes are, in their order."""
    others = NUMBERS.get(call, ())
    if call not in NAMING:
        return others
    return tuple(with_name(call, ("finger", "view number"), others))


def take_case(taker):
    """One case as a list of names and values, in the order of the file."""
    calls = {number: call for call, number in CALLS.items()}
    call = calls[taker.number("B")]
    fields = [("call", call)]
    if taker.number("B") != len(numbers_of(call)):
        sys.exit("a case passes another number of numbers than its call takes")
    for name in numbers_of(call):
        fields.append((name, taker.number("Q")))
    for _ in range(taker.number("B")):
        fields.append(("slice lent", taker.bytes()))
    fields.append(("output size", taker.number("I")))
    fields.append(("output fill", "%02x" % taker.number("B")))
    fields.append(("expected number", taker.number("I")))
    fields.append(("expected place", taker.number("I")))
    fields.append(("expected length", taker.number("Q")))
    fields.append(("expected bytes", taker.bytes()))
    return fields


def as_text(value):
    """A number as it is; bytes in rows under their count."""
    if not isinstance(value, bytes):
        return str(value)
    rows = ["%d bytes" % len(value)]
    for at in range(0, min(len(value), MOST_SHOWN), BYTES_IN_A_ROW):
        rows.append("  %5d  %s" % (at, value[at:at + BYTES_IN_A_ROW].hex(" ")))
    if len(value) > MOST_SHOWN:
        rows.append("  %5d  ..." % MOST_SHOWN)
    return "\n".join(rows)


def main():
    if len(sys.argv) != 3:
        sys.exit("two arguments are needed: a case file and a case's index")
    with open(sys.argv[1], "rb") as file:
        taker = Taker(file.read())
    if taker.data[:8] != b"FSKCASES":
        sys.exit("this is no case file")
    taker.at = 8
    count = taker.number("I")
    index = int(sys.argv[2])
    if index >= count:
        sys.exit("there are only %d cases" % count)
    for _ in range(index):
        take_case(taker)
    for name, value in take_case(taker):
        print("%-16s %s" % (name, as_text(value)))


if __name__ == "__main__":
    main()
