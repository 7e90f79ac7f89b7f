"""The ways in which cards' objects were read and written; these are only counted."""

from model import LARGEST_RECORD, MOST_LINES, least_width

# Lengths at which the form of a length changes.
TURNS = (127, 128, 255, 256)
LONGEST = 65535
HELD = ("no lines", "1,024 lines", "no index", "index over no lines",
        "index over lines", "w not the least", "width above 255", "32,768 bytes")
ROOMS = ("in just enough room", "one element short")
READINGS = HELD + ROOMS + (
    "90 alone", "one object behind", "several behind", "empty object behind",
    "tag 90 behind", "tag 7F behind", "template %d" % LONGEST) + tuple(
        "%s %d" % (part, length) for part in ("template", "90", "behind")
        for length in TURNS)
WRITINGS = HELD + ROOMS + (
    "one of several views", "segments left out", "other fields left out") + tuple(
        "%s %d" % (part, length) for part in ("template", "90") for length in TURNS)


def held(view, record_length):
    """Which of HELD a view and the record that it is in show."""
    count = len(view.lines)
    if count in (0, MOST_LINES):
        yield "1,024 lines" if count else "no lines"
    if view.index is None:
        yield "no index"
    else:
        yield "index over lines" if count else "index over no lines"
        if view.index.w > least_width(view.index.neighbours):
            yield "w not the least"
    if view.width > 255:
        yield "width above 255"
    if record_length == LARGEST_RECORD:
        yield "32,768 bytes"


def lengths(shape):
    """The lengths of an object's parts, where they are at a turn or the longest."""
    found = [(part, end - start) for part, (start, end) in (
        ("template", shape.template), ("90", shape.inner))]
    found += [("behind", length) for _, length in shape.behind]
    for part, length in found:
        if length in TURNS or (part, length) == ("template", LONGEST):
            yield "%s %d" % (part, length)


def behind(shape):
    """What stands behind object 90."""
    number = len(shape.behind)
    yield ("90 alone", "one object behind", "several behind")[min(number, 2)]
    for tag, length in shape.behind:
        if length == 0:
            yield "empty object behind"
        if tag in (0x90, 0x7F):
            yield "tag %02X behind" % tag


def reading(card, record_length):
    """Which of READINGS an object that was read shows, rooms left aside; each once."""
    return {*held(card.record.views[0], record_length), *lengths(card.shape),
            *behind(card.shape)}


def writing(record, record_length, view, shape):
    """Which of WRITINGS a view that was written shows, rooms left aside; the shape is
    that of its object."""
    found = {*held(view, record_length), *lengths(shape)}
    if len(record.views) > 1:
        found.add("one of several views")
    if view.segments:
        found.add("segments left out")
    if (record.device, view.number, view.position, view.impression,
            view.quality) != (0, 0, 0, 0, 0):
        found.add("other fields left out")
    return found
