"""The record of document 01 as plain structures, its limits, and the refusal.

Every other file speaks in these words. A structure holds values, never
lengths or padding: those follow from the values when bytes are built.
"""

from dataclasses import dataclass, field

SMALLEST_RECORD = 24
LARGEST_RECORD = 32768
MOST_LINES = 1024
MOST_VIEWS = 255
HEADER_BYTES = 24
VIEW_HEADER_BYTES = 10
IDENTIFIER = bytes([0x46, 0x53, 0x4B, 0x00])
VERSION = bytes([0x30, 0x31, 0x30, 0x00])
IMPRESSIONS = (0, 1, 2, 3, 8, 9)
QUALITY_TYPE = 0x0003
PORES_TYPE = 0x0004

# What can be at fault, for each number that request [1] gives a place.
FAULTS = {
    2: ("identifier",),
    3: ("version",),
    4: ("record length",),
    5: ("views", "points", "c", "b", "k", "straight step", "N", "reserved"),
    6: ("view header", "skeleton block", "index length", "index block",
        "extended length", "extended block"),
    7: ("view number", "finger position", "impression", "quality"),
    8: ("line up to its count", "line behind its count", "padding"),
    9: ("bits left over",),
    10: ("w", "count past the end", "difference past the end",
         "later difference of 0", "sum above the line", "1 of up to 7 bits",
         "1 before the eighth bit", "1 at the eighth bit",
         "1 behind the eighth bit", "eighth bit"),
    11: ("length under 4", "length past the block", "bytes over"),
    12: ("bytes after the last view",)}
# The numbers of a record that is refused: 1, which has no place, and these.
OF_A_RECORD = (1, *FAULTS)

# What can be at fault in a segment of local quality, or in values for one, where
# request [3] gives 24; it has no place.
QUALITY_FAULTS = ("type", "under 3 bytes", "cell width 0", "cell height 0",
                  "bits 0", "bits above 8", "too few bytes", "too many bytes",
                  "1 in padding", "value above its bits")

# What can be at fault in a segment of pores, where request [7] gives 26, which has no
# place: in any, in a payload, and in numbers for one.
PORE_FAULTS = (("type", "e under 2", "e above 8", "too few lines"),
               ("under 3 bytes", "first element not zero", "all ones before a line",
                "all ones before padding", "all ones at the end", "8 zero bits over",
                "8 bits over, 1 among them", "1 in under e bits",
                "1 behind a zero element"),
               ("cut number", "under 2 numbers", "resolution above 65535",
                "count too high", "distance 0", "numbers over"))

# Where a removal meets another type (16), and whether 26 would be given without it: no
# pores are at fault, or some are, before that segment or behind it.
OTHER_TYPE_FAULTS = ("no pores at fault", "bad pores before", "bad pores behind")

# What can be at fault in a list of pairs as a whole, where request [4] gives 25; it
# has no place. The order's first number is above 1, or the last order is cut; also
# where an order before would be refused with 15 or 18.
LIST_FAULTS = ("empty list", "cut order", "cut order after 15 or 18",
               "above 1, only order", "above 1, first order", "above 1, middle order",
               "above 1, last order", "above 1 after 15 or 18")

# What can be at fault where request [9] gives 27, which has no place: in a size number;
# in the shape of a card's object, which are a tag, a length (of the template, of object
# 90 in it, of an object behind that), bytes after it all, and 90's value.
FAR_SIZES = (2, 3, 255, 256, 257, 65536, 65537, 1 << 31, (1 << 31) + 1, (1 << 32) - 1)
SIZE_FAULTS = tuple("size %d" % size for size in FAR_SIZES) + ("another size",)
LENGTH_FAULTS = ("length missing", "form 80", "form above 82", "length cut",
                 "81 in vain", "81 for 127", "82 in vain", "82 for 255", "past the end")
SHAPE_FAULTS = (("template: tag cut", "template: tag", "90: missing", "90: tag")
                + tuple("%s: %s" % (part, fault) for part in ("template", "90", "behind")
                        for fault in LENGTH_FAULTS)
                + ("bytes after it", "width cut", "height cut", "skeleton length cut",
                   "skeleton past the end", "index length cut", "index past the end",
                   "bytes left over"))

# What can be at fault where request [9] gives 28: one of bytes 15 to 21 alone, all
# those in which the sizes differ, which are then the other's, or some of them.
SET_FIELDS = ("points", "c", "b", "k", "straight step", "perpendicular step", "N")
SET_FAULTS = SET_FIELDS + ("the other size's", "several")

# What can be at fault where request [9] gives 29: in a run, and in its low bytes.
RUN_FAULTS = ("odd length", "start above 255", "fall", "rise above 255")
LOW_FAULTS = ("past 65535",)

# What can be at fault where request [10] gives 30, which is a rule number: some, those
# whose low byte or low half alone is a rule, and others; and where it gives 31.
FAR_RULES = (0, 3, 255, 256, 257, 258, 65537, 65538, (1 << 31) + 1, (1 << 32) - 1)
RULE_FAULTS = tuple("rule %d" % rule for rule in FAR_RULES) + (
    "low byte of a rule", "low half of a rule", "another rule")
B_FAULTS = ("b 4", "b 5")

KNOWN_FAULTS = {16: OTHER_TYPE_FAULTS, 24: QUALITY_FAULTS, 25: LIST_FAULTS,
                26: sum(PORE_FAULTS, ()), 27: SIZE_FAULTS + SHAPE_FAULTS,
                28: SET_FAULTS, 29: RUN_FAULTS + LOW_FAULTS, 30: RULE_FAULTS,
                31: B_FAULTS, **FAULTS}


class Refusal(Exception):
    """A refusal: its number, for 2 to 12 its place, and for some the fault."""

    def __init__(self, number, place=0, fault=""):
        super().__init__(number, place, fault)
        if fault not in KNOWN_FAULTS.get(number, ("",)):
            raise ValueError("%d has no fault %r" % (number, fault))
        if number not in FAULTS and place != 0:
            raise ValueError("%d has no place" % number)
        self.number = number
        self.place = place
        self.fault = fault


def refusing(number):
    """A judge of conditions: it refuses with this number, which has no place, where one
    does not hold, and the fault tells which."""
    def must(condition, fault=""):
        if not condition:
            raise Refusal(number, 0, fault)
    return must


def fault_given(number, judge_bytes, data, about):
    """The fault with which these bytes are refused by this number, which has no place;
    none where they are not refused."""
    try:
        judge_bytes(data, about)
    except Refusal as refusal:
        assert (refusal.number, refusal.place) == (number, 0)
        return refusal.fault
    return ""


@dataclass
class Line:
    """One line of a skeleton; codes are two's complement numbers."""

    start_type: int
    start_direction: int
    start_x: int
    start_y: int
    codes: list
    end_type: int
    end_direction: int
    end_x: int
    end_y: int


@dataclass
class Index:
    """The width w, and for each line its neighbours by number, highest first."""

    w: int
    neighbours: list


@dataclass
class Segment:
    """An extended segment; payload_bit is known only where it was read."""

    type: int
    payload: bytes
    payload_bit: int = 0


@dataclass
class View:
    """One view; index None means index length 0."""

    number: int
    position: int
    impression: int
    quality: int
    width: int
    height: int
    lines: list = field(default_factory=list)
    index: Index = None
    segments: list = field(default_factory=list)


@dataclass
class Record:
    """One record; `device` is bytes 12 and 13 as one number."""

    device: int
    points: int
    c: int
    b: int
    k: int
    straight: int
    perpendicular: int
    half_turn: int
    views: list = field(default_factory=list)


def differences(line, neighbours):
    """Clause 6.3.2: L minus its first neighbour, first minus second, and so on."""
    result = []
    before = line
    for neighbour in neighbours:
        result.append(before - neighbour)
        before = neighbour
    return result


def least_width(neighbours):
    """The least w, at least 1, that holds every count and every difference."""
    largest = 0
    for line, listed in enumerate(neighbours):
        largest = max(largest, len(listed))
        for difference in differences(line, listed):
            largest = max(largest, difference)
    return max(1, largest.bit_length())
