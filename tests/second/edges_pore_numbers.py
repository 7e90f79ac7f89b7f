"""Numbers for pores at the edges, listed one by one and not left to chance.

Lists that are cut, one number too short and one too long, counts that are off by one
or by as much as 32 bits hold; distances where the number of elements changes, and the
largest; sums of elements, bits and bytes that a narrow counter would wrap; and payloads
with which a record has 32,768 bytes or one more.
"""

from edges_pores import (EVERY_E, RESOLUTION, every_e, pores_record, room_of_payload)
from make_pores import places_of_numbers, with_numbers
from model import MOST_LINES
from pores import (FIRST_BYTES, LARGEST_NUMBER, MOST_RESOLUTION, Pores, bytes_of,
                   longest_step, passes_of, to_numbers)

# Above which 16, 31 or 32 bits are too few.
WRAPS = (1 << 16, 1 << 31, 1 << 32)


def lists_of(pores):
    """The right numbers, bytes too few or too many, a number too few or too many."""
    data = to_numbers(pores)
    return ([data, data[:-4], data + bytes(4), data + bytes_of([1])]
            + [data[:-size] for size in (1, 2, 3)] + [data + bytes(size)
                                                      for size in (1, 2, 3)])


def numbers_changed(pores):
    """Each count too high or too low, and each distance 0."""
    found = []
    counts, distances = places_of_numbers(pores)
    for at, line in zip(counts, pores.lines):
        found += [with_numbers(pores, at, count)
                  for count in (len(line) + 1, len(line) - 1, LARGEST_NUMBER)
                  if count >= 0]
    return found + [with_numbers(pores, at, 0) for at in distances]


def first_numbers():
    """The first two numbers at and beyond their limits, for no lines and for one."""
    found = []
    for lines in ([], [[1]]):
        for e in (0, 1, 2, 3, 7, 8, 9, 10, 255, 256, 258, 260, 65540, (1 << 31) + 4,
                  LARGEST_NUMBER):
            found.append((len(lines), with_numbers(Pores(7, 4, lines), 1, e)))
        for resolution in (0, 1, 255, 256, MOST_RESOLUTION, MOST_RESOLUTION + 1, 65736,
                           1 << 31, LARGEST_NUMBER):
            found.append((len(lines), with_numbers(Pores(7, 4, lines), 0, resolution)))
    return found


def short_lists():
    """Up to five numbers that are all alike, for few lines and for none."""
    return [(count, bytes_of([number] * size)) for number in (0, 1, 2, 3, 8, 9,
                                                              LARGEST_NUMBER)
            for size in range(6) for count in (0, 1, 2, 3)]


def large_counts():
    """Counts with which the place behind a line's distances, or four times it, comes
    back to the start, to the count or to the end of the list in 32 bits."""
    found = []
    for before in ([], [1, 5], [0, 2, 4, 4]):
        lines = {0: 1, 2: 2, 4: 3}[len(before)]
        numbers = [RESOLUTION, 4, *before]
        for behind in (0, 1, 3):
            at, end = len(numbers), len(numbers) + 1 + behind
            counts = {LARGEST_NUMBER, LARGEST_NUMBER - 1, 1 << 31, 1 << 30, 3 << 30}
            counts |= {(1 << 32) - place for place in (1, 3, at, at + 1, end)}
            counts |= {(turn << 30) + behind for turn in (1, 2, 3)}
            found += [(lines, bytes_of(numbers + [count] + [3] * behind))
                      for count in sorted(counts)]
    return found


def distances_of(e):
    """Distances where a further element is needed, and large ones."""
    step = longest_step(e)
    near = {turn * step + more for turn in (1, 2, 3) for more in (-1, 0, 1)}
    large = {65535, 65536, 65537, (1 << 31) - 1, 1 << 31, LARGEST_NUMBER - 1,
             LARGEST_NUMBER}
    return sorted(near - {0} | large | {1, 255, 256})


def one_distance():
    """Each of them in a lone line, and in the last of two."""
    return [(len(lines), to_numbers(Pores(RESOLUTION, e, lines))) for e in EVERY_E
            for distance in distances_of(e)
            for lines in ([[distance]], [[1], [distance, 1]])]


def in_elements(e, elements):
    """Distances that have so many elements in all, as few as can be."""
    most = passes_of(LARGEST_NUMBER, e) + 1
    found = [LARGEST_NUMBER] * (elements // most)
    rest = elements % most
    return found + ([(rest - 1) * longest_step(e) + 1] if rest > 0 else [])


def wrapped():
    """Lines whose elements, bits or bytes, or whose distances, come to just about what
    16, 31 or 32 bits hold; all of it is far more than a record has."""
    found = []
    for e in EVERY_E:
        for limit in WRAPS:
            in_bits, in_bytes = -(-limit // e), -(-8 * limit // e)
            for elements in sorted({limit - 1, limit, in_bits - 1, in_bits,
                                    in_bytes - 1, in_bytes}):
                lines = [in_elements(e, elements)]
                found.append((1, to_numbers(Pores(RESOLUTION, e, lines))))
    for line in ([1 << 31] * 2, [LARGEST_NUMBER, 1], [LARGEST_NUMBER] * 2):
        found += [(2, to_numbers(Pores(RESOLUTION, e, [line, []]))) for e in EVERY_E]
    return found


def numbers_edges():
    """Lines and numbers of every edge; those that no shorter list may leave out come
    first."""
    small = [pores for pores in every_e() if len(pores.lines) in (0, 1, 2, 3, 5)]
    two = Pores(RESOLUTION, 4, [[1], [2, 15]])
    first = [(len(pores.lines), to_numbers(pores)) for pores in small]
    first += [(2, data) for data in lists_of(two) + numbers_changed(two)]
    others = [(len(pores.lines), data) for pores in small
              for data in lists_of(pores)[1:] + numbers_changed(pores)]
    many = [Pores(RESOLUTION, 2, [[2]] + [[]] * more + [[3, 1]])
            for more in range(MOST_LINES - 3, MOST_LINES)]
    first += [(MOST_LINES, to_numbers(pores)) for pores in many]
    return (first + first_numbers(),
            others + short_lists() + large_counts() + one_distance() + wrapped())


def filling(e, past):
    """A record, and the numbers with which it has `past` bytes more than 32,768: one
    distance in a lone line, as long as can be."""
    size = room_of_payload(1) + past
    elements = 8 * (size - FIRST_BYTES) // e
    lines = [in_elements(e, elements - 1)]
    return pores_record(1, b"\0\1\2"), to_numbers(Pores(RESOLUTION, e, lines))
