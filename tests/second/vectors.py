"""The samples of crates/vectors, and the text that must come of them.

    python3 tests/second/vectors.py [--write]

The program `vectors` prints, for each file that its arguments name, the
listing, then of a refused record the refusal's place, else the sheet's size and the
first trails and segments of each view, which finger position and view number name:
the fingers rise, and of each the views count up while there is one. Behind the line
of a segment whose local quality can be read stand its values, where 256 bytes hold
them, and behind that of one whose pores can be read its numbers, where 1,024 bytes do.
Of a card file it prints what comes of reading it at each size, and of writing that
again. Here the same text comes from this program's own judge, sheet, trail, segment,
quality, pores and card code, and vectors_records.py, vectors_names.py,
vectors_quality.py, vectors_pores.py and vectors_card.py make records and objects from
plain values, so that neither rests on the library. Without an argument files and text
are compared; with --write they are written and then compared.
"""

import argparse
import sys
from itertools import count, zip_longest
from pathlib import Path

from answers import lent, outcome
from judge import judge
from model import FAULTS, LARGEST_RECORD, Refusal
from names import POSITIONS, find_view
from pores import numbers_of
from trail import trail
from vectors_card import ENDING, card_rows, card_samples, cards_without_sample
from vectors_names import name_samples
from vectors_pores import pores_samples
from vectors_quality import quality_samples
from vectors_records import (FINGERS, heading_samples, limit_samples,
                             refused_samples)

FOLDER = Path(__file__).resolve().parents[2] / "crates" / "vectors"
MOST_READ = LARGEST_RECORD + 1
SHEET_ROOM = 65536
QUALITY_ROOM = 256
PORES_ROOM = 1024
MOST_SHOWN = 8

# The samples that are not made here; only their text is worked out.
FOUND = ("a", "p3", "p5", "p6", "p7", "p8-b3", "p8-b4", "p9", "p10", "p11",
         "p11-removed", "annex-a", "annex-a-mended", "annex-a1", "annex-a2",
         "annex-a3", "annex-a4", "annex-b", "annex-b-89", "annex-b-87",
         "annex-b-mended")


def new_samples():
    """All samples made here, by file name: records, then cards."""
    records = {**limit_samples(), **heading_samples(), **quality_samples(),
               **pores_samples(), **name_samples(), **refused_samples()}
    return {**{name + ".fsk": data for name, data in records.items()},
            **{name + ENDING: data for name, data in card_samples().items()}}


def view_text(view):
    """The listing's line of a view; each index entry is one pair."""
    pairs = "-"
    if view.index is not None:
        pairs = sum(len(listed) for listed in view.index.neighbours)
    return "view %s %d lines %d pairs %s segments %d" % (
        FINGERS[view.position], view.number, len(view.lines), pairs,
        len(view.segments))


def sheet_text(data):
    """How many bytes reading writes to the lent sheet, or its refusal."""
    read = lent(outcome("read", [], [data]), SHEET_ROOM)
    if read.number != 0:
        return "sheet refused %d" % read.number
    return "sheet %d" % read.length


def segment_rows(data, finger, number, segment):
    """A segment's size, and the values of its local quality or the numbers of its pores
    if the room holds them."""
    named = [finger, number, segment]
    found = outcome("segment", named, [data])
    rows = ["segment %d %d %d: %d bytes" % (*named, found.length)]
    read = lent(outcome("quality", named, [data]), QUALITY_ROOM)
    if read.number == 0:
        values = "".join(" %d" % value for value in read.written)
        rows.append("quality %d %d %d:%s" % (*named, values))
    read = lent(outcome("pores", named, [data]), PORES_ROOM)
    if read.number == 0:
        numbers = "".join(" %d" % number for number in numbers_of(read.written))
        rows.append("pores %d %d %d:%s" % (*named, numbers))
    return rows


def view_rows(data, record, finger, number):
    """A view's first trails, then its first segments."""
    view, rows = find_view(record, finger, number), []
    for at, line in enumerate(view.lines[:MOST_SHOWN]):
        numbers = "".join(" %d" % element for element in trail(line, record))
        rows.append("trail %d %d %d:%s" % (finger, number, at, numbers))
    for at in range(min(len(view.segments), MOST_SHOWN)):
        rows += segment_rows(data, finger, number, at)
    return rows


def detail_rows(data, record):
    """The rows of all views, finger by finger, not as they stand in the record."""
    rows = []
    for finger in POSITIONS:
        for number in count():
            if find_view(record, finger, number) is None:
                break
            rows += view_rows(data, record, finger, number)
    return rows


def listing(data, record):
    """The listing of an accepted record."""
    rows = ["record %d views %d" % (len(data), len(record.views))]
    return rows + [view_text(view) for view in record.views]


def file_rows(name, data):
    """What must be printed for one file; its first 32,769 bytes are the record."""
    if name.endswith(ENDING):
        return [name] + card_rows(data, listing)
    data = data[:MOST_READ]
    try:
        record = judge(data)
    except Refusal as refusal:
        return [name, "refused %d" % refusal.number, "place %d" % refusal.place]
    return ([name] + listing(data, record) + [sheet_text(data)]
            + detail_rows(data, record))


def names_in_order():
    """The file names that args must hold: those found, then the new ones."""
    return [name + ".fsk" for name in FOUND] + list(new_samples())


def text_of(names):
    """The whole text over the files named; one that is missing has none."""
    rows = []
    for name in names:
        path = FOLDER / "data" / name
        if path.is_file():
            rows += file_rows(name, path.read_bytes())
    return "".join(row + "\n" for row in rows)


def bytes_of(path):
    """A file's bytes; None if there is no such file."""
    return path.read_bytes() if path.is_file() else None


def wrong_files():
    """The files of samples that are not those made here, or not there."""
    wrong = []
    for name, data in new_samples().items():
        if bytes_of(FOLDER / "data" / name) != data:
            wrong.append("data/%s is not the one made here" % name)
    return wrong


def wrong_names(names):
    """What args leaves out, names in vain, or orders otherwise."""
    there = {path.name for ending in (".fsk", ENDING)
             for path in (FOLDER / "data").glob("*" + ending)}
    wrong = ["args does not name %s" % name for name in sorted(there - set(names))]
    wrong += ["args names %s, which is not there" % name
              for name in sorted(set(names) - there)]
    if not wrong and names != names_in_order():
        wrong.append("args has another order, or names a file twice")
    return wrong


def numbers_without_sample(names):
    """The refusals of a record, 1 to 12, and of a card, that no file named here gives."""
    records, cards = [], []
    for name in names:
        data = bytes_of(FOLDER / "data" / name)
        if data is not None:
            (cards if name.endswith(ENDING) else records).append(data[:MOST_READ])
    given = {outcome("read", [], [data]).number for data in records}
    return ["no sample is refused with %d" % number
            for number in [1] + sorted(FAULTS) if number not in given
            ] + cards_without_sample(cards)


def wrong_text(found, expected):
    """The first line in which stdout differs from the text worked out."""
    if found == expected:
        return []
    rows = zip_longest(found.split("\n"), expected.split("\n"))
    for at, (is_, should) in enumerate(rows, 1):
        if is_ != should:
            return ["stdout, line %d: is %r, must be %r" % (at, is_, should)]
    return []


def compare():
    """Everything that differs, and how many files args names."""
    args = bytes_of(FOLDER / "args") or b""
    names = args.decode("ascii", "replace").split("\n")
    wrong = wrong_files()
    if names.pop() != "":
        wrong.append("args does not end with a newline")
    wrong += wrong_names(names) + numbers_without_sample(names)
    stdout = bytes_of(FOLDER / "stdout") or b""
    wrong += wrong_text(stdout.decode("ascii", "replace"), text_of(names))
    return wrong, len(names)


def write():
    """Writes the new samples, the arguments and the text."""
    for name, data in new_samples().items():
        (FOLDER / "data" / name).write_bytes(data)
    names = names_in_order()
    (FOLDER / "args").write_bytes("".join(name + "\n" for name in names).encode())
    (FOLDER / "stdout").write_bytes(text_of(names).encode())


def main():
    parser = argparse.ArgumentParser(description="the samples of crates/vectors")
    parser.add_argument("--write", action="store_true",
                        help="write the new samples, args and stdout first")
    if parser.parse_args().write:
        write()
    wrong, count = compare()
    for difference in wrong:
        print("vectors: " + difference)
    if wrong:
        sys.exit(1)
    print("vectors: %d files as the second program has them" % count)


if __name__ == "__main__":
    main()
