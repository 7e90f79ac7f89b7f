"""Plans the cases of the two calls on runs: the edges, then runs at random.

At the edges a run starts, rises and ends at each limit and beyond it, and its faults
stand at its start, in its middle and at its end. At random a run has steps of all sorts,
and some are broken.
"""

from functools import partial

from card_before import runs_before
from lend import lend, lend_twice
from runs import LARGEST_NUMBER, MOST_RISE, bytes_of, to_low_bytes

# The example of clause 8.4.
EXAMPLE = (60, 276, 277, 333, 581, 797, 860, 986, 1000)
# The steepest run there is, to 65,535.
STEEPEST = tuple(range(0, LARGEST_NUMBER + 1, MOST_RISE))
LONG = 70000


def right_runs():
    """Runs at the limits of what can be told by low bytes."""
    runs = [(), (0,), (255,), (0, 0), (255, 255, 255), (0, 255), (255, 510), (255, 256),
            (1, 255, 256), (7, 7, 262, 262), (0, 1, 256, 511, 512), EXAMPLE, STEEPEST,
            STEEPEST + (LARGEST_NUMBER,) * 3, tuple(range(256)), tuple(range(1000)),
            tuple(range(0, LARGEST_NUMBER, 128)) + (LARGEST_NUMBER,)]
    return runs + [(5,) * LONG]


def wrong_runs():
    """Runs that start too high, fall or rise too much, at their start, in their middle
    and at their end; numbers whose differences would pass in 8 or in 16 bits."""
    found = [(first, *rest) for first in (256, 257, 511, 512, 32768, LARGEST_NUMBER)
             for rest in ((), (LARGEST_NUMBER,), (first,), (0,))]
    steps = ((9, 8), (9, 265), (9, 9 + 512), (255, 254), (255, 0), (0, 256), (0, 257),
             (0, 32768), (0, LARGEST_NUMBER), (200, 200 + 65280))
    found += [step + more for step in steps for more in ((), (step[1],))]
    found += [EXAMPLE + (number,) for number in (999, 1256, 1000 - 256, 0, LARGEST_NUMBER)]
    found += [EXAMPLE[:4] + (number,) + EXAMPLE[4:] for number in (332, 589, 77, 582)]
    return found + [STEEPEST + (number,) for number in (0, 254, LARGEST_NUMBER - 1)]


def low_of(run):
    """A right run's low bytes."""
    return to_low_bytes(bytes_of(run))[0]


def low_bytes_edges():
    """Runs as bytes that are wrong, and right ones made to be of odd length."""
    runs = [bytes_of(run) for run in wrong_runs()]
    runs += [bytes_of(run) + b"\0" for run in right_runs()[:12]]
    return runs + [bytes_of(run)[:-1] for run in right_runs()[1:12]] + [
        bytes_of(EXAMPLE)[1:], bytes_of((256,)) + b"\0", b"\0" * (2 * LONG + 1)]


def from_low_edges():
    """All short rows of a few bytes, and those that come to 65,535, to one number less,
    and past it."""
    found = [bytes([byte]) for byte in (1, 127, 128, 254)]
    found += [bytes([first, second, third]) for first in (0, 1, 254, 255)
              for second in (0, 1, 255) for third in (0, 1, 254, 255)]
    drops = b"\1\0" * 255
    found += [drops + last for last in (b"", b"\xfe", b"\xff", b"\xff\xff", b"\xff\xfe",
                                        b"\1\0", b"\0\0", b"\xff\0", b"\1\0" * 300)]
    return found + [bytes(range(255, -1, -1)), bytes(range(255, -1, -1)) + b"\xff",
                    bytes(range(255, -1, -1)) + b"\xff\xfe", b"\xff\0" * LONG,
                    drops + b"\xff" * LONG]


def random_run(rng):
    """A right run: small steps, large ones, equal neighbours, or all of these."""
    most = rng.choice((1, 9, 60, MOST_RISE))
    number, run = rng.choice((0, 1, 254, MOST_RISE, rng.randrange(256))), []
    for _ in range(rng.choice((0, 1, 2, 5, rng.randint(0, 40), rng.randint(0, 900)))):
        run.append(number)
        number += rng.choice((0, 1, MOST_RISE, rng.randint(0, most), rng.randint(0, most)))
        if number > LARGEST_NUMBER:
            break
    return run


def broken_run(rng, run):
    """A run with another number somewhere, or with two exchanged."""
    if len(run) < 2:
        return [rng.randrange(256, LARGEST_NUMBER + 1)]
    at = rng.randrange(len(run))
    other = rng.randrange(len(run))
    if rng.random() < 0.3:
        run[at], run[other] = run[other], run[at]
    else:
        run[at] = rng.choice((run[at] ^ 256, max(0, run[at] - 1), rng.getrandbits(16),
                              min(LARGEST_NUMBER, run[at] + 256)))
    return run


def low_bytes_case(rng):
    """The low bytes of a run, of a broken one, or of an odd number of bytes."""
    run, kind = random_run(rng), rng.random()
    if kind < 0.3:
        run = broken_run(rng, run)
    data = bytes_of(run)
    if kind > 0.95:
        data = data[:-1] if rng.random() < 0.5 else data + b"\0"
    return lend(rng, "low_bytes", [], [data])


def from_low_case(rng):
    """A run from its low bytes, or from any bytes, of which over 500 or so drop too
    often."""
    data = low_of(random_run(rng))
    if rng.random() < 0.5:
        size = rng.choice((3, 20, rng.randint(0, 500), rng.randint(400, 700)))
        data = rng.randbytes(size)
    return lend(rng, "from_low_bytes", [], [data])


def runs_stream(call, bytes_of_run, edges, case_of, rng, _stock, _budget):
    """29 before 20, right runs with the room they need and a byte less, the other edges,
    then cases at random."""
    yield from runs_before(rng, call)
    for run in right_runs():
        yield from lend_twice(rng, call, [], [bytes_of_run(run)])
    for data in edges():
        yield lend(rng, call, [], [data])
    while True:
        yield case_of(rng)


def runs_streams():
    """The maker of its stream of cases for each call on runs."""
    return {"low_bytes": partial(runs_stream, "low_bytes", bytes_of, low_bytes_edges,
                                 low_bytes_case),
            "from_low_bytes": partial(runs_stream, "from_low_bytes", low_of,
                                      from_low_edges, from_low_case)}
