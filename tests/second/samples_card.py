"""Cards' objects as assertions, worked out by hand byte by byte.

samples.py runs these. They show that reading and writing do what request [9] says at
both sizes, with what and at which place a wrong object is refused, and where 19 starts.
Annex B.4 is run as printed and mended.
"""

from answers import lent, outcome

NORMAL, COMPACT = 0, 1
HEADS = ("46534B00 30313000 %s 0000 01 C8 0B 08 04 18 3C 20 0000",
         "46534B00 30313000 %s 0000 01 64 08 06 04 10 3C 20 0000")

# Size, object, and the record behind its header. Normal: one line, 01 01000000
# 10000000001 00000000011, the code -3 and 10 11111111 00000000000 11111111111. Compact:
# one line, 01 000101, 10, 20, the code +2 and 10 001000, 14, 20; it is next to itself.
# Then no lines, with and without an index.
BY_HAND = (
    (NORMAL, "7F2E 14 90 12  0FFF 0001  000A 50200803 01 DBFC007FF0  0000",
     "00 00 00 00 0FFF 0001 000A 50200803 01 DBFC007FF0 0000 0000"),
    (COMPACT, "7F2E 14 90 12  0100 00FF  0008 450A14 01 2880E140  0002 0180",
     "00 00 00 00 0100 00FF 0008 450A14 01 2880E140 0002 0180 0000"),
    (NORMAL, "7F2E 0A 90 08  0000 0000 0000 0000", "00 00 00 00 0000 0000 0000 0000 0000"),
    (COMPACT, "7F2E 0A 90 08  FFFF 0000 0000 0000", "00 00 00 00 FFFF 0000 0000 0000 0000"),
    (NORMAL, "7F2E 0B 90 09  0005 0006 0000 0001 10",
     "00 00 00 00 0005 0006 0000 0001 10 0000"),
    (COMPACT, "7F2E 0B 90 09  0005 0006 0000 0001 01",
     "00 00 00 00 0005 0006 0000 0001 01 0000"))

# What can stand behind 90, and the template's length then; in an object of 20 bytes.
BEHIND = (("91 00", 22), ("90 01 00", 23), ("7F 00", 22), ("00 00", 22),
          ("91 00 A1 01 7F 90 00", 27), ("FF 03 900000", 25))

# The beginning of the object for each length of 90's value around a change of form.
FORMS = {8: "7F2E 0A 90 08", 125: "7F2E 7F 90 7D", 126: "7F2E 8180 90 7E",
         127: "7F2E 8181 90 7F", 128: "7F2E 8183 90 8180", 252: "7F2E 81FF 90 81FC",
         253: "7F2E 820100 90 81FD", 254: "7F2E 820101 90 81FE",
         255: "7F2E 820102 90 81FF", 256: "7F2E 820104 90 820100",
         257: "7F2E 820105 90 820101"}

# Objects that are refused with 27, at both sizes: the value of 90 has 8 zero bytes, if
# it is whole. Tags, forms of lengths, lengths, 90 itself, its value, what is behind it.
ZERO = "0000 0000 0000 0000"
MISSHAPEN = (
    "", "7F", "7F2E", "5F2E 0A 90 08" + ZERO, "7F2F 0A 90 08" + ZERO, "90 08" + ZERO,
    "7F2E 810A 90 08" + ZERO, "7F2E 82000A 90 08" + ZERO, "7F2E 8300000A 90 08" + ZERO,
    "7F2E 80 90 08" + ZERO + "0000", "7F2E 0B 90 8108" + ZERO, "7F2E 0C 90 820008" + ZERO,
    "7F2E 0D 90 83000008" + ZERO, "7F2E 0C 90 80" + ZERO + "0000", "7F2E FF",
    "7F2E 09 90 08" + ZERO, "7F2E 0B 90 08" + ZERO, "7F2E 0A 90 08" + ZERO + "00",
    "7F2E 0A 90 07" + ZERO, "7F2E 0A 90 09" + ZERO, "7F2E 00", "7F2E 01 90",
    "7F2E 0A 91 08" + ZERO, "7F2E 0C 91 00 90 08" + ZERO, "7F2E 02 90 00",
    "7F2E 03 90 01 00", "7F2E 05 90 03 000000", "7F2E 07 90 05 0000000000",
    "7F2E 08 90 06 000000000000", "7F2E 09 90 07 00000000000000",
    "7F2E 0B 90 09" + ZERO + "00", "7F2E 0A 90 08 0000 0000 0001 0000",
    "7F2E 0A 90 08 0000 0000 0000 0001", "7F2E 0B 90 08" + ZERO + "91",
    "7F2E 0C 90 08" + ZERO + "91 01", "7F2E 0D 90 08" + ZERO + "91 8100",
    "7F2E 0E 90 08" + ZERO + "91 820000", "7F2E 0C 90 08" + ZERO + "91 80",
    "7F2E 0C 90 08" + ZERO + "91 81", "7F2E 0D 90 08" + ZERO + "91 8201")

# Compact objects whose skeleton, from bit 88 on, or index breaks a rule: number, place.
BROKEN = (
    (8, 151, "7F2E 14 90 12 0100 00FF 0008 450A14 01 2880E141 0002 0180"),
    (8, 148, "7F2E 14 90 12 0100 00FF 0008 450A14 01 2880E148 0002 0180"),
    (8, 88, "7F2E 13 90 11 0100 00FF 0007 450A14 01 2880E1 0002 0180"),
    (8, 88, "7F2E 0F 90 0D 0100 00FF 0003 450A14 0002 0180"),
    (8, 148, "7F2E 15 90 13 0100 00FF 0009 450A14 01 2880E140 00 0002 0180"),
    (8, 148, "7F2E 15 90 13 0100 00FF 0009 450A14 01 2880E140 00 0002 0080"),
    (10, 168, "7F2E 14 90 12 0100 00FF 0008 450A14 01 2880E140 0002 0080"),
    (10, 168, "7F2E 14 90 12 0100 00FF 0008 450A14 01 2880E140 0002 1180"),
    (10, 176, "7F2E 13 90 11 0100 00FF 0008 450A14 01 2880E140 0001 01"),
    (10, 177, "7F2E 14 90 12 0100 00FF 0008 450A14 01 2880E140 0002 01C0"),
    (10, 183, "7F2E 14 90 12 0100 00FF 0008 450A14 01 2880E140 0002 0181"),
    (10, 185, "7F2E 15 90 13 0100 00FF 0008 450A14 01 2880E140 0003 018000"))

B4 = bytes.fromhex(
    "5F2E 8139 00140023 00292904 01010127 0A030433 72108F06 1802DE10 6A020801 006A080B"
    "0337216A 080B0337 2132130D 030721 00080401 11222121 2110")
# Its seven lines as they should be, 7 bytes and half a byte for each code, one after
# another, then zero bits; line 7's first code is 0 as in B.3's bytes.
B4_MENDED = bytes.fromhex(
    "7F2E 4C 90 4A 0014 0023 003A 290401010000000270A030433720000008F061802DE0000006A020"
    "80100000006A080B033720000006A080B0337200000032130D030720000000 0008 0401112221212110")


def read(size, data):
    return outcome("card_read", [size], [data])


def write(size, record, finger=0, number=0):
    return outcome("card_write", [size, finger, number], [record])


def record_of(size, behind_header):
    """A record from its bytes behind the header."""
    view = bytes.fromhex(behind_header)
    length = (24 + len(view)).to_bytes(4, "big").hex()
    return bytes.fromhex(HEADS[size] % length) + view


def both_ways(size, data, record):
    """Reading the object gives the record, and writing the record the object; with a
    byte of room too little each is 20."""
    for found, expected in ((read(size, data), record), (write(size, record), data)):
        assert (found.number, found.place, found.length) == (0, 0, len(expected)), found
        assert found.written == expected
        assert lent(found, len(expected)).number == 0
        assert lent(found, len(expected) - 1).number == 20


def by_hand():
    """The objects by hand, both ways, and read with others behind 90."""
    for size, text, view in BY_HAND:
        data, record = bytes.fromhex(text), record_of(size, view)
        both_ways(size, data, record)
        for behind, length in BEHIND:
            if len(data) == 23:
                longer = data[:2] + bytes([length]) + data[3:] + bytes.fromhex(behind)
                assert read(size, longer).written == record, behind
        for far in (2, 255, 256, 257, 4294967295):
            assert read(far, data).number == write(far, record).number == 27
            assert read(far, b"").number == write(far, b"").number == 27


def compact_line(size):
    """A compact line of so many bytes, two codes in each above 7."""
    codes = size - 7
    return bytes([0x45, 10, 20, 2 * codes]) + b"\x1f" * codes + bytes([0x88, 14, 20])


def lengths():
    """Every form of a length, both ways: 90's value has 8 bytes and the lines."""
    for length, head in FORMS.items():
        size = length - 8
        lines = compact_line(size) if 0 < size < 135 else b""
        if size >= 135:
            lines = compact_line(134) + compact_line(size - 134)
        value = bytes(4) + size.to_bytes(2, "big") + lines + bytes(2)
        assert len(value) == length
        both_ways(COMPACT, bytes.fromhex(head) + value,
                  record_of(COMPACT, "00000000" + value.hex() + "0000"))


def limits():
    """1,024 lines and a byte: 9, where the lines end. 32,730 bytes of lines make a record
    of 32,768, and one byte more is 19."""
    for size, line in ((NORMAL, bytes(9)), (COMPACT, bytes(7))):
        block = line * 1024
        for more, expected in ((0, (0, 0)), (1, (9, 8 * (15 + len(block))))):
            length = len(block) + more
            value = bytes(4) + length.to_bytes(2, "big") + block + bytes(more + 2)
            data = (b"\x7f\x2e\x82" + (len(value) + 4).to_bytes(2, "big") + b"\x90\x82"
                    + len(value).to_bytes(2, "big") + value)
            found = read(size, data)
            assert (found.number, found.place) == expected, found
    for last, number, head in ((34, 0, "7F2E 827FE6 90 827FE2 00000000 7FDA"),
                               (35, 19, "7F2E 827FE7 90 827FE3 00000000 7FDB")):
        lines = compact_line(134) * 244 + compact_line(last)
        found = read(COMPACT, bytes.fromhex(head) + lines + bytes(2))
        assert (found.number, found.length) == (number, 0 if number else 32768)


def refused():
    """27 for each wrong shape; 8 and 10 at their places; 27 comes before them."""
    for text in MISSHAPEN:
        for size in (NORMAL, COMPACT):
            found = read(size, bytes.fromhex(text))
            assert (found.number, found.place, found.length) == (27, 0, 0), (text, found)
    for number, place, text in BROKEN:
        found = read(COMPACT, bytes.fromhex(text))
        assert (found.number, found.place, found.length) == (number, place, 0), found
        assert read(COMPACT, bytes.fromhex(text + "00")).number == 27


def other_sets():
    """28 for each of bytes 15 to 21 that is off by one, in a record without lines; 5
    where the record may not have it; 13 before 28, and 27 before both."""
    for size, b_above in ((NORMAL, 5), (COMPACT, 28)):
        record = record_of(size, BY_HAND[2][2])
        for at in range(15, 22):
            for more in (-1, 1):
                off = bytearray(record)
                off[at] += more
                number = b_above if (at, more) == (17, 1) else 28
                assert write(size, bytes(off)).number == number, (size, at, more)
                assert write(2, bytes(off)).number == 27
        assert write(1 - size, record).number == 28
        assert write(1 - size, record, 0, 1).number == write(size, record, 1).number == 13
        device = record[:12] + b"\xff\xff" + record[14:]
        assert write(size, device).written == bytes.fromhex(BY_HAND[2][1])


def one_of_several():
    """The view that is named, without its segments: the second scan of finger 2."""
    views = ("00 02 00 50 0001 0001 0000 0000 0000",
             "00 07 08 64 0002 0002 0000 0001 05 0000",
             "01 02 09 01 0003 0004 0008 450A14 01 2880E140 0002 0180 0006 0101 0006 0707")
    record = bytearray(record_of(COMPACT, " ".join(views)))
    record[14] = 3
    assert write(COMPACT, bytes(record), 2, 1).written == bytes.fromhex(
        "7F2E 14 90 12  0003 0004  0008 450A14 01 2880E140  0002 0180")
    assert write(COMPACT, bytes(record), 7).written == bytes.fromhex(
        "7F2E 0B 90 09  0002 0002 0000 0001 05")
    assert write(COMPACT, bytes(record), 1, 2).number == 13


def annex_b4():
    """As printed it is 27 at both sizes. Mended it is compact; as a normal one it has
    lines of 9, 25, 9 and 9 bytes, and from byte 52 of 58 on a fifth, which does not fit."""
    assert len(B4) == 61 and len(B4_MENDED) == 79
    assert read(NORMAL, B4).number == read(COMPACT, B4).number == 27
    found = read(COMPACT, B4_MENDED)
    assert (found.number, found.length) == (0, 104)
    assert write(COMPACT, found.written).written == B4_MENDED
    found = read(NORMAL, B4_MENDED)
    assert (found.number, found.place) == (8, 8 * (11 + 52))


def cards():
    """All of them."""
    by_hand()
    lengths()
    limits()
    refused()
    other_sets()
    one_of_several()
    annex_b4()
