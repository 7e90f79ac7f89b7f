"""Builds a card's object from a view, part by part: request [9].

The parts are kept apart first, so that the makers of damaged objects can change one
tag, one length or one block and leave the rest right.
"""

from dataclasses import dataclass, field, replace

from build import index_bytes, length_bytes, skeleton_bytes

TEMPLATE_TAG = b"\x7f\x2e"
INNER_TAG = b"\x90"
MOST_LENGTH = 65535


def shortest_length(length):
    """A length in BER's shortest form: a byte; 81 and one above 127; 82 and two above
    255."""
    if length <= 127:
        return bytes([length])
    if length <= 255:
        return b"\x81" + bytes([length])
    return b"\x82" + length.to_bytes(2, "big")


@dataclass
class Wrapped:
    """A tag and a value. The length that is written is the value's own and what it is
    off by. A form of None is the shortest, up to the longest length that it has; another
    has at least so many bytes behind the first, and 0 is 80 alone."""

    tag: bytes
    value: bytes = b""
    off: int = 0
    form: int = None

    def length_field(self):
        length = max(0, len(self.value) + self.off)
        if self.form is None:
            return shortest_length(min(length, MOST_LENGTH))
        if self.form == 0:
            return b"\x80"
        size = max(self.form, (length.bit_length() + 7) // 8)
        return bytes([0x80 + size]) + length.to_bytes(size, "big")

    def to_bytes(self):
        return self.tag + self.length_field() + self.value


@dataclass
class CardParts:
    """The fields of object 90's value with bytes left over behind them, the objects
    behind 90 and bytes that are no whole object, bytes after the template, and how the
    two are wrapped."""

    width: int
    height: int
    skeleton: bytes
    index: bytes
    skeleton_length: int = None
    index_length: int = None
    left_over: bytes = b""
    behind: list = field(default_factory=list)
    rest: bytes = b""
    after: bytes = b""
    inner: Wrapped = field(default_factory=lambda: Wrapped(INNER_TAG))
    template: Wrapped = field(default_factory=lambda: Wrapped(TEMPLATE_TAG))


def card_parts(record, view):
    """The parts of the object that holds a view's skeleton and index alone."""
    return CardParts(view.width, view.height, skeleton_bytes(view.lines, record),
                     index_bytes(view.index))


def value_bytes(parts):
    """Object 90's value, table 9."""
    return (parts.width.to_bytes(2, "big") + parts.height.to_bytes(2, "big")
            + length_bytes(parts.skeleton, parts.skeleton_length) + parts.skeleton
            + length_bytes(parts.index, parts.index_length) + parts.index
            + parts.left_over)


def inside_bytes(parts):
    """The template's value: object 90 and what is behind it."""
    inside = replace(parts.inner, value=value_bytes(parts)).to_bytes()
    return inside + b"".join(each.to_bytes() for each in parts.behind) + parts.rest


def card_bytes(parts):
    """The whole object, table 6."""
    return replace(parts.template, value=inside_bytes(parts)).to_bytes() + parts.after
