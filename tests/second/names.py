"""The name of a view: its finger position and its view number, request [6].

By clause 7.4.1.1 the two together tell a view from all others of its record. Every
call that is about one view names it so, and 13 means that no view's header has the
two. Here too is what a name could be mistaken for; that is only counted.
"""

from model import MOST_VIEWS, Refusal

POSITIONS = range(11)
LARGEST_NUMBER = (1 << 32) - 1
# Finger positions and view numbers that no view has.
FAR_FINGERS = (11, 255, 256, LARGEST_NUMBER)
FAR_NUMBERS = (255, 256, LARGEST_NUMBER)
# What is added to a view's finger and number, so that narrow numbers would still see
# the view. With the last, 256 times the finger plus the number stays the same.
ADDED = {"finger + 256": (256, 0), "number + 256": (0, 256),
         "both + 256": (256, 256), "finger + 65536": (65536, 0),
         "number + 65536": (0, 65536), "finger + 2^31": (1 << 31, 0),
         "number + 2^31": (0, 1 << 31), "finger - 1, number + 256": (-1, 256)}

# What is told apart among names that mean a view. Another view has the exchanged name,
# or the place for a number.
RIGHT_NAMES = ("position 0", "position 10", "last of several views",
               "place is not the number", "place, number, views differ",
               "another finger in between", "exchanged, another view",
               "place as number, another view", "number 254",
               "255 views of one finger", "255 views of eleven fingers")
# What is told apart among names that mean no view. A view has the exchanged name, or
# stands at the place that is given for its number.
WRONG_NAMES = (("number one too high", "number 255 of 255 views", "finger not there",
                "exchanged, no view", "place as number, no view")
               + tuple("finger %d" % finger for finger in FAR_FINGERS)
               + tuple("number %d" % number for number in FAR_NUMBERS)
               + tuple(ADDED))


def name_of(view):
    """A view's finger position and view number."""
    return view.position, view.number


def find_view(record, finger, number):
    """The view whose header has this position and this number; None if none has."""
    for view in record.views:
        if name_of(view) == (finger, number):
            return view
    return None


def named_view(record, finger, number):
    """The view that a call names: 13 where there is none."""
    view = find_view(record, finger, number)
    if view is None:
        raise Refusal(13)
    return view


def views_of(record, finger):
    """How many views of a finger a record has."""
    return sum(1 for view in record.views if view.position == finger)


def right_kinds(record, finger, number):
    """Which of the RIGHT_NAMES a name is that means a view."""
    names = [name_of(view) for view in record.views]
    place, views = names.index((finger, number)), views_of(record, finger)
    if finger in (0, 10):
        yield "position %d" % finger
    if 0 < place == len(names) - 1:
        yield "last of several views"
    if place != number:
        yield "place is not the number"
    if place not in (number, views):
        yield "place, number, views differ"
    if number > 0 and names[place - 1][0] != finger:
        yield "another finger in between"
    if finger != number and (number, finger) in names:
        yield "exchanged, another view"
    if place != number and (finger, place) in names:
        yield "place as number, another view"
    if number == 254:
        yield "number 254"
    if views == MOST_VIEWS:
        yield "255 views of one finger"
    if len(names) == MOST_VIEWS and {name[0] for name in names} == set(POSITIONS):
        yield "255 views of eleven fingers"


def wrong_kinds(record, finger, number):
    """Which of the WRONG_NAMES a name is that means no view."""
    names = [name_of(view) for view in record.views]
    views = views_of(record, finger)
    if views > 0 and number == views:
        yield "number one too high"
    if views == MOST_VIEWS and number == MOST_VIEWS:
        yield "number 255 of 255 views"
    if views == 0 and finger in POSITIONS:
        yield "finger not there"
    if (number, finger) in names:
        yield "exchanged, no view"
    if number < len(names) and names[number][0] == finger:
        yield "place as number, no view"
    if finger in FAR_FINGERS:
        yield "finger %d" % finger
    if number in FAR_NUMBERS:
        yield "number %d" % number
    for kind, (more, further) in ADDED.items():
        if (finger - more, number - further) in names:
            yield kind
