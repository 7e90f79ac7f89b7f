"""Makes names of views: mostly a view's own, else one near it.

A name near a view's own is one that a host passes by mistake, or that a reader with
narrow numbers takes for the view's. Some of them mean another view. What comes of a
name is not assumed here; names.py decides.
"""

from names import ADDED, FAR_FINGERS, FAR_NUMBERS, POSITIONS, name_of, views_of


def names_near(record, view):
    """The number one too high, finger and number exchanged, the place for the number,
    fingers and numbers that no view has, fingers that are not there, and the view's own
    name but for what is added."""
    finger, number = name_of(view)
    place = [name_of(each) for each in record.views].index((finger, number))
    names = [(finger, views_of(record, finger)), (number, finger), (finger, place)]
    names += [(far, number) for far in FAR_FINGERS]
    names += [(finger, far) for far in FAR_NUMBERS]
    names += [(other, number) for other in POSITIONS if views_of(record, other) == 0]
    names += [(finger + more, number + further) for more, further in ADDED.values()
              if finger + more >= 0]
    return [name for name in names if name != (finger, number)]


def name_in(rng, record, wrong=0.08):
    """The name of a view of the record, mostly; else one near it, or any numbers."""
    view = rng.choice(record.views)
    if rng.random() >= wrong:
        return name_of(view)
    if rng.random() < 0.1:
        return rng.randrange(1 << 32), rng.randrange(1 << 32)
    return rng.choice(names_near(record, view))


def any_name(rng):
    """A name for a record that is refused, whatever the name is."""
    return rng.choice((0, 2, 10, rng.randrange(12))), rng.randrange(3)
