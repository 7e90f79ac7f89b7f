"""Sheets at the edges, listed one by one and not left to chance.

Small sheets are cut at every byte and turned at every bit, every field gets
every tag and the lengths around each limit, and short rows of fields come in
every order.
"""

from itertools import product

from bits import with_bit_turned
from edges import empty_view_record, two_line_record, two_view_record
from sheet import fields_of, sheet_bytes, to_sheet

LENGTHS = (0, 1, 2, 3, 7, 8, 9, 10, 11, 12, 13, 266, 267, 268)
BYTES = (0, 1, 2, 3, 4, 5, 8, 9, 10, 11, 16, 17, 100, 101, 127, 128, 254, 255)


def small_sheets():
    return [to_sheet(empty_view_record()), to_sheet(two_line_record()),
            to_sheet(two_view_record())]


def cut_everywhere():
    return [sheet[:size] for sheet in small_sheets() for size in range(len(sheet))]


def turned_everywhere():
    return [with_bit_turned(sheet, bit) for sheet in small_sheets()
            for bit in range(8 * len(sheet))]


def with_field(fields, place, field):
    return sheet_bytes(fields[:place] + [field] + fields[place + 1:])


def tags_and_lengths():
    """Every field with every tag, and with values of many lengths."""
    fields = fields_of(two_view_record())
    sheets = []
    for place, (tag, value) in enumerate(fields):
        value = bytes(value)
        for other in (0, 1, 2, 3, 4, 5, 6, 7, 255):
            sheets.append(with_field(fields, place, (other, value)))
        for length in LENGTHS + (len(value) + 1, len(value) + 2):
            longer = (value + bytes(300))[:length]
            sheets.append(with_field(fields, place, (tag, longer)))
    return sheets


def every_byte():
    """Every byte of every value at many values."""
    sheets = []
    for record in (two_line_record(), two_view_record()):
        fields = fields_of(record)
        for place, (tag, value) in enumerate(fields):
            for at in range(len(value)):
                for byte in BYTES:
                    new = bytes(value[:at]) + bytes([byte]) + bytes(value[at + 1:])
                    sheets.append(with_field(fields, place, (tag, new)))
    return sheets


def row_of(tags):
    """Fields with these tags whose lengths and values are right."""
    values = {1: bytes(fields_of(empty_view_record())[0][1]), 3: bytes(12),
              4: b"\1", 5: b"", 6: b"\0\7"}
    fields = []
    views = 0
    for tag in tags:
        if tag == 2:
            fields.append((2, bytes([views]) + bytes(7)))
            views += 1
        else:
            fields.append((tag, values[tag]))
    return sheet_bytes(fields)


def every_order():
    """All rows of up to two fields, and of up to four behind an 01 and an 02."""
    rows = [row for length in range(3)
            for row in product(range(1, 7), repeat=length)]
    rows += [(1, 2) + row for length in range(1, 5)
             for row in product(range(1, 7), repeat=length)]
    return [row_of(row) for row in rows]


def some_edge_sheets(rng, most):
    """Up to `most` of them; each list gives about the same share."""
    lists = [cut_everywhere(), turned_everywhere(), tags_and_lengths(),
             every_byte(), every_order()]
    sheets = [b""]
    for members in sorted(lists, key=len):
        share = max(0, most - len(sheets)) // len(lists)
        sheets += rng.sample(members, min(len(members), share))
        lists = lists[1:]
    return sheets
