"""Turns a call and its arguments into a case: output lent, answer expected.

Also the arguments that several calls share: line numbers, places of segments and
counts that are mostly right and otherwise near a limit or a wrap-around; and the order
in which the cases of a call come. The names of views stand in make_names.py.
"""

from dataclasses import dataclass

from answers import lent, outcome
from results import Outcome

WITHOUT_OUTPUT = ("segment", "holds", "check")
PLENTY = (65535, 65536, 65537, 131072)


@dataclass
class Case:
    """One case: what is passed and lent, and what must come back.

    Where it is the last of a law's trial, that law with each way in which it was met.
    Where two numbers apply, the one that is given and the other. These are only
    counted.
    """

    call: str
    numbers: list
    slices: list
    out_size: int
    fill: int
    expected: Outcome
    laws: tuple = ()
    before: tuple = ()


def room_for_list(rng, lengths):
    """Enough for every record that the orders of a list leave, mostly; else a byte
    too few for one of them, or room for the last one alone."""
    if not lengths:
        return rng.choice((0, 1, rng.randint(0, 400), rng.choice(PLENTY)))
    longest, last, one = max(lengths), lengths[-1], rng.choice(lengths)
    sizes = [longest, longest + rng.randint(1, 300)]
    if rng.random() < 0.4:
        sizes = [longest - 1, lengths[0] - 1, last, last - 1, one, one - 1,
                 rng.randint(0, longest)]
    return rng.choice(sizes if rng.random() < 0.99 else PLENTY + (0,))


def out_size_for(rng, call, result):
    """Exactly enough, one element too few, zero, more than needed, odd."""
    if call in WITHOUT_OUTPUT:
        return 0
    if result.walk is not None:
        return room_for_list(rng, result.walk.lengths)
    if result.number != 0:
        return rng.choice((0, 1, 2, 3, rng.randint(0, 100), rng.randint(0, 400)))
    wanted = len(result.written)
    element = result.size
    sizes = [wanted, wanted, wanted, wanted + element, wanted - element, 0,
             wanted + rng.randint(1, 40), wanted + rng.randint(1, 300),
             rng.randint(0, wanted), wanted + 1, wanted - 1]
    if rng.random() < 0.5:
        sizes = sizes[:5]
    if rng.random() < 0.01:
        sizes = PLENTY[:3] + (PLENTY[3] + wanted,)
    return max(0, rng.choice(sizes))


def lend_known(rng, call, numbers, slices, result, out_size):
    """The case of a call whose outcome in ample room is known."""
    fill = rng.choice((0x00, 0xFF, 0xA5, rng.randrange(256)))
    return Case(call, numbers, slices, out_size, fill, lent(result, out_size))


def lend(rng, call, numbers, slices, out_size=None):
    """The case of a call; the size of its output is left to chance if not given."""
    result = outcome(call, numbers, slices)
    if out_size is None:
        out_size = out_size_for(rng, call, result)
    return lend_known(rng, call, numbers, slices, result, out_size)


def marked(case, *numbers):
    """The case, in which both numbers apply and the first is given."""
    assert case.expected.number == numbers[0], (case.call, case.expected, numbers)
    case.before = (numbers,)
    return case


def lend_enough(rng, call, numbers, slices):
    """The case of a call with just enough room, where it can be accepted."""
    result = outcome(call, numbers, slices)
    if result.number != 0:
        return lend(rng, call, numbers, slices)
    lengths = [len(result.written)] + (result.walk.lengths if result.walk else [])
    return lend(rng, call, numbers, slices, max(lengths))


def lend_twice(rng, call, numbers, slices):
    """The cases of a call in just the room that it takes and in a byte less; where
    nothing is written, in ample room and in none."""
    wanted = len(outcome(call, numbers, slices).written)
    return [lend(rng, call, numbers, slices, room)
            for room in ((wanted, wanted - 1) if wanted > 0 else (PLENTY[1], 0))]


def far_off(rng, right, count):
    """A number that is not right: next to a limit, or right but for high bits."""
    return rng.choice((count, count + 1, right + 256, right + 65536,
                       right + (1 << 31), 255, 65535, (1 << 32) - 1,
                       rng.randrange(1 << 32)))


def place_in(rng, count, wrong=0.08):
    """A number below `count` where there is one, and mostly right."""
    right = rng.randrange(count) if count > 0 else 0
    if rng.random() < wrong:
        return far_off(rng, right, count)
    return right


def line_count(rng, count):
    """The line count an order was made for, mostly right."""
    if rng.random() < 0.06:
        return rng.choice((count + 1, max(0, count - 1), 0, count + 256,
                           count + 65536, (1 << 32) - 1))
    return count


def edges_first(rng, edges, source, case_of, filled=None):
    """An endless stream: the edges, then a case for each record of the source; now and
    then, where it is given, one in which the new record fills its room."""
    yield from edges
    for turn, data in enumerate(source):
        yield case_of(rng, data)
        if filled is not None and turn % 80 == 0:
            yield filled(rng)
