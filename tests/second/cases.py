"""Writes a file of cases with their expected answers, for the C replay host.

    python3 tests/second/cases.py --calls read,trail --seed 1 --count 20000 --out FILE

Instead of names, --calls takes `orders` (the orders, set_quality, set_pores and
pores, whose sequences mix them, and holds), `cards` (the calls of request [9]) or
`others`; without it all calls are taken.
The same seed, calls and count give the same file. All numbers in the file are
unsigned and stand high byte first:

    file   8 bytes "FSKCASES", 4 bytes number of cases, then the cases
    case   1 byte   call: 1 read, 2 write, 3 trail, 4 segment, 5 remove,
                    6 join, 7 part, 8 holds, 9 quality, 10 set_quality,
                    11 pairs, 12 pores, 13 set_pores, 14 card_read,
                    15 card_write, 16 low_bytes, 17 from_low_bytes,
                    18 check
           1 byte   number of numbers passed, then 8 bytes for each,
                    in the order of the call's declaration: a view's
                    finger position and number are the first two, but of
                    card_write the second and third, behind the size; of
                    check the rule stands alone
           1 byte   number of input slices, then for each
                    4 bytes length and that many bytes
           4 bytes  size of the lent output in bytes (0: none, or an empty one)
           1 byte   the byte that fills the output before the call
           4 bytes  expected number; of holds, expected second
           4 bytes  expected place
           8 bytes  expected length
           4 bytes  number of bytes written, then these bytes; every byte of
                    the output beyond them must keep its fill

Tables go to standard error: how often each number was met, how often each fault,
how often calls were accepted in each way, behind which orders pores were read, what
the names of views were like, which of two numbers was given, and how often the laws of
request [8] were met in each way (tables.py). What a chosen call can meet and never met
is a failure. How many cases are refused with a place in the record, or in the card's
object, goes to standard output.
"""

import argparse
import random
import struct
import sys
from itertools import islice

from answers import CALLS, ORDERS
from model import FAULTS
from plan import Stock, streams
from tables import Met, all_tables, never_met

WITH_ORDERS = [*ORDERS, "pores", "holds"]
WITH_CARDS = ["card_read", "card_write", "low_bytes", "from_low_bytes"]
GROUPS = {"orders": WITH_ORDERS, "cards": WITH_CARDS,
          "others": [call for call in CALLS if call not in WITH_ORDERS + WITH_CARDS]}


def case_bytes(case):
    """One case as it stands in the file."""
    expected = case.expected
    pieces = [struct.pack(">BB", CALLS[case.call], len(case.numbers))]
    pieces += [struct.pack(">Q", number) for number in case.numbers]
    pieces.append(struct.pack(">B", len(case.slices)))
    for lent_slice in case.slices:
        pieces += [struct.pack(">I", len(lent_slice)), lent_slice]
    pieces.append(struct.pack(">IB", case.out_size, case.fill))
    pieces.append(struct.pack(">IIQ", expected.number, expected.place,
                              expected.length))
    pieces += [struct.pack(">I", len(expected.written)), expected.written]
    return b"".join(pieces)


def all_cases(calls, seed, count):
    """The cases of all calls in turn; each call has about the same share."""
    stock = Stock(random.Random("%d stock" % seed))
    share = -(-count // len(calls))
    makers = streams(calls)
    for place, call in enumerate(calls):
        rng = random.Random("%d %s" % (seed, call))
        wanted = min(share, count - place * share)
        yield from islice(makers[call](rng, stock, share), max(0, wanted))


def arguments():
    parser = argparse.ArgumentParser(description="writes a file of cases")
    parser.add_argument("--calls", default=",".join(CALLS))
    parser.add_argument("--seed", type=int, default=1)
    parser.add_argument("--count", type=int, default=20000)
    parser.add_argument("--out", required=True)
    chosen = parser.parse_args()
    chosen.calls = GROUPS.get(chosen.calls) or chosen.calls.split(",")
    for call in chosen.calls:
        if call not in CALLS:
            parser.error("no call %s; there are %s" % (call, ", ".join(CALLS)))
    return chosen


def main():
    chosen = arguments()
    met = Met()
    with open(chosen.out, "wb") as out:
        out.write(b"FSKCASES" + struct.pack(">I", chosen.count))
        for case in all_cases(chosen.calls, chosen.seed, chosen.count):
            out.write(case_bytes(case))
            met.add(case)
    print(all_tables(met, chosen.calls), file=sys.stderr)
    missing = never_met(met, chosen.calls)
    for text in missing:
        print("never met: " + text, file=sys.stderr)
    written = sum(met.numbers.values())
    placed = sum(times for (_, number, _), times in met.numbers.items()
                 if number in FAULTS)
    print("cases: %d, %d of them refused with a place" % (written, placed))
    if written != chosen.count:
        print("%d cases written, not %d" % (written, chosen.count), file=sys.stderr)
    return 1 if missing or written != chosen.count else 0


if __name__ == "__main__":
    sys.exit(main())
