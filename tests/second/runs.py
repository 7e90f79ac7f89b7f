"""Runs of start coordinates and their low bytes: request [9], clause 8.4.

A run never falls, so that its low bytes tell it: wherever they drop, the next number is
in the next 256. A host passes 16-bit numbers, high byte first. Both ways are judged
here (29).
"""

from model import refusing

NUMBER_BYTES = 2
LARGEST_NUMBER = 65535
MOST_RISE = 255

# The ways in which accepted runs differ; they are only counted.
RUN_WAYS = ("empty", "one number", "start 0", "start 255", "equal neighbours",
            "rise of 255", "rise of 1 over a 256", "next 256", "65535 reached",
            "over 65535 numbers")

# 29 where a run cannot be told by its low bytes.
must = refusing(29)


def bytes_of(numbers):
    """16-bit numbers as bytes, high byte first."""
    return b"".join(number.to_bytes(NUMBER_BYTES, "big") for number in numbers)


def numbers_of(data):
    """The 16-bit numbers of an even number of bytes."""
    return [int.from_bytes(data[at:at + NUMBER_BYTES], "big")
            for at in range(0, len(data), NUMBER_BYTES)]


def to_low_bytes(run):
    """The low bytes of a run that is passed as bytes, and the run."""
    must(len(run) % NUMBER_BYTES == 0, "odd length")
    numbers = numbers_of(run)
    must(not numbers or numbers[0] <= MOST_RISE, "start above 255")
    for before, number in zip(numbers, numbers[1:]):
        must(number >= before, "fall")
        must(number - before <= MOST_RISE, "rise above 255")
    return bytes(number % 256 for number in numbers), numbers


def from_low_bytes(data):
    """The run that low bytes tell: 256 more from each drop on; equal is no drop."""
    added, before, numbers = 0, 0, []
    for byte in data:
        if byte < before:
            added += 256
        must(added + byte <= LARGEST_NUMBER, "past 65535")
        numbers.append(added + byte)
        before = byte
    return numbers


def ways_of(numbers):
    """Which of RUN_WAYS an accepted run shows."""
    if len(numbers) < 2:
        yield RUN_WAYS[len(numbers)]
    if numbers and numbers[0] in (0, MOST_RISE):
        yield "start %d" % numbers[0]
    steps = list(zip(numbers, numbers[1:]))
    rises = {number - before for before, number in steps}
    if 0 in rises:
        yield "equal neighbours"
    if MOST_RISE in rises:
        yield "rise of 255"
    if any(number - before == 1 and number % 256 == 0 for before, number in steps):
        yield "rise of 1 over a 256"
    if any(number // 256 > before // 256 for before, number in steps):
        yield "next 256"
    if LARGEST_NUMBER in numbers:
        yield "65535 reached"
    if len(numbers) > LARGEST_NUMBER:
        yield "over 65535 numbers"
