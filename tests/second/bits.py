"""Numbers of any width inside bytes, high byte first and high bit first.

Document 01 states this order once for everything, so it is written down once
here: reading a number at a bit, and putting numbers one after another.
"""


def number_at(data, bit, width):
    """The unsigned number of `width` bits whose first bit is `bit` (from 0)."""
    after = bit + width
    last_byte = (after + 7) // 8
    covering = int.from_bytes(data[bit // 8:last_byte], "big")
    return (covering >> (8 * last_byte - after)) & ((1 << width) - 1)


def first_one(data, bit, end):
    """The first bit from `bit` up to but not including `end` that is 1, or None."""
    while bit < end:
        if number_at(data, bit, 1) == 1:
            return bit
        bit += 1
    return None


def signed(number, width):
    """An unsigned number of `width` bits taken as two's complement."""
    if number >= 1 << (width - 1):
        return number - (1 << width)
    return number


def unsigned(number, width):
    """The bits of a two's complement number as an unsigned number."""
    if number < 0:
        return number + (1 << width)
    return number


def with_bit_turned(data, bit):
    """A copy of `data` in which one bit has its other value."""
    copy = bytearray(data)
    copy[bit // 8] ^= 0x80 >> (bit % 8)
    return bytes(copy)


class BitList:
    """Numbers put one after another without gaps."""

    def __init__(self):
        self.pieces = []

    def put(self, number, width):
        """Put one unsigned number of `width` bits at the end."""
        if number < 0 or number >= 1 << width:
            raise ValueError("%d does not fit %d bits" % (number, width))
        self.pieces.append(format(number, "0%db" % width))

    def to_bytes(self):
        """All bits, then zero bits up to a whole byte."""
        text = "".join(self.pieces)
        if text == "":
            return b""
        text += "0" * (-len(text) % 8)
        return int(text, 2).to_bytes(len(text) // 8, "big")
