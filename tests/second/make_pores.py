"""Makes pores at random: right payloads and numbers, and broken ones.

A break is named after the fault it aims at (model.PORE_FAULTS). What comes of it is
not assumed here; pores.py decides. Payloads are short: the more lines a view has, the
fewer of them get pores.
"""

from dataclasses import replace

from bits import BitList, with_bit_turned
from pores import (FIRST_BYTES, LARGEST_NUMBER, LEAST_BITS, MOST_BITS, NUMBER_FAULTS,
                   PAYLOAD_FAULTS, Pores, all_ones, bytes_of, last_of, longest_step,
                   numbers_of, passes_of, to_numbers, to_payload)

MOST_PORES = 24


def random_resolution(rng):
    return rng.choice((0, 1, 200, 500, 65535, rng.getrandbits(16)))


def random_distance(rng, e):
    """A distance of one element or of a few, often where their number changes."""
    step = longest_step(e)
    return rng.choice((1, step, step + 1, 2 * step, 2 * step + 1, rng.randint(1, step),
                       rng.randint(1, step), rng.randint(1, 4 * step)))


def right_pores(rng, count):
    """Pores for a view with so many lines."""
    e = rng.randint(LEAST_BITS, MOST_BITS)
    share = min(rng.choice((0.0, 0.3, 0.6, 1.0)), MOST_PORES / max(1, count))
    most = rng.choice((1, 2, 4))
    lines = []
    for _ in range(count):
        size = rng.randint(1, most) if rng.random() < share else 0
        lines.append([random_distance(rng, e) for _ in range(size)])
    return Pores(random_resolution(rng), e, lines)


# ---- payloads ----

def elements_of(pores):
    """The elements of a payload, the zero element before each line too."""
    elements, e = [], pores.e
    for line in pores.lines:
        elements.append(0)
        for distance in line:
            elements += [all_ones(e)] * passes_of(distance, e) + [last_of(distance, e)]
    return elements


def packed(resolution, e, elements):
    """A payload with any elements, right or not, and zero bits up to a whole byte."""
    bits = BitList()
    for element in elements:
        bits.put(element, e)
    return resolution.to_bytes(2, "big") + bytes([e]) + bits.to_bytes()


def with_ones(rng, pores, fault):
    """Elements of all ones behind one line's, where there is a line."""
    e, elements = pores.e, elements_of(pores)
    if fault == "all ones before a line" and len(pores.lines) > 1:
        starts = [at for at, element in enumerate(elements) if element == 0]
        at = rng.choice(starts[1:])
        elements[at:at] = [all_ones(e)] * rng.randint(1, 2)
    elif pores.lines:
        elements += [all_ones(e)]
        while fault == "all ones at the end" and len(elements) * e % 8 != 0:
            elements += [all_ones(e)]
    return packed(pores.resolution, e, elements)


def with_padding(rng, pores):
    """A payload with a padding bit turned, where it has one."""
    payload = to_payload(pores)
    used = 8 * FIRST_BYTES + len(elements_of(pores)) * pores.e
    if used == 8 * len(payload):
        return payload
    return with_bit_turned(payload, rng.randrange(used, 8 * len(payload)))


def with_first_element(rng, pores):
    """A payload whose first line has no zero element, or another one."""
    elements = elements_of(pores)
    new = [] if rng.random() < 0.3 else [rng.randint(1, all_ones(pores.e))]
    return packed(pores.resolution, pores.e, new + elements[1:])


def with_more(rng, payload, fault):
    """A payload with bytes more behind it."""
    zeros = rng.choice((1, 1, 1, 2, 5))
    if fault == "8 zero bits over":
        return payload + bytes(zeros)
    return payload + bytes(zeros - 1) + bytes([rng.randint(1, 255)])


def with_e(rng, payload, fault):
    """A payload that states bits of an element beyond their limits."""
    values = (0, 1) if fault == "e under 2" else (9, 9, 10, 16, 128 + payload[2], 255)
    return payload[:2] + bytes([rng.choice(values)]) + payload[FIRST_BYTES:]


def broken_payload(rng, pores, fault):
    """The payload of right pores broken in one way."""
    payload = to_payload(pores)
    if fault == "under 3 bytes":
        return payload[:rng.randrange(FIRST_BYTES)]
    if fault in ("e under 2", "e above 8"):
        return with_e(rng, payload, fault)
    if fault == "too few lines":
        return to_payload(replace(pores, lines=pores.lines[:-rng.choice((1, 1, 2))]))
    if fault == "first element not zero":
        return with_first_element(rng, pores)
    if fault.startswith("all ones"):
        return with_ones(rng, pores, fault)
    if fault.startswith("8 "):
        return with_more(rng, payload, fault)
    return with_padding(rng, pores)


def random_payload(rng, count, right=0.75):
    """A payload for a view with so many lines, right or broken."""
    pores = right_pores(rng, count)
    if rng.random() < right:
        return to_payload(pores)
    return broken_payload(rng, pores, rng.choice(PAYLOAD_FAULTS[1:]))


# ---- numbers ----

def places_of_numbers(pores):
    """Where among the numbers the counts stand, and where the distances."""
    counts, distances, at = [], [], 2
    for line in pores.lines:
        counts.append(at)
        distances += range(at + 1, at + 1 + len(line))
        at += 1 + len(line)
    return counts, distances


def with_numbers(pores, at, number):
    """The numbers of right pores with one exchanged."""
    numbers = list(numbers_of(to_numbers(pores)))
    numbers[at] = number
    return bytes_of(numbers)


def with_count(rng, pores):
    """Numbers of which a count is too high, by little or much, or too low."""
    at = rng.choice(places_of_numbers(pores)[0])
    count = numbers_of(to_numbers(pores))[at]
    return with_numbers(pores, at, rng.choice((
        count + 1, count + 1, count + 2, max(0, count - 1), count + (1 << 30),
        count + (1 << 31), LARGEST_NUMBER - at, LARGEST_NUMBER)))


def broken_numbers(rng, pores, fault):
    """The numbers of right pores broken in one way, where that can be."""
    data = to_numbers(pores)
    counts, distances = places_of_numbers(pores)
    if fault == "cut number":
        return data[:-rng.randint(1, 3)] if rng.random() < 0.5 else data + bytes(
            rng.randint(1, 3))
    if fault == "under 2 numbers":
        return data[:4 * rng.randrange(2)]
    if fault == "resolution above 65535":
        return with_numbers(pores, 0, rng.choice((65536, 65536 + pores.resolution,
                                                  1 << 31, LARGEST_NUMBER)))
    if fault in ("e under 2", "e above 8"):
        return with_numbers(pores, 1, rng.choice(
            (0, 1) if fault == "e under 2" else
            (9, 10, 256 + pores.e, 65536 + pores.e, LARGEST_NUMBER)))
    if fault == "too few lines":
        return to_numbers(replace(pores, lines=pores.lines[:-1]))
    if fault == "count too high" and counts:
        return with_count(rng, pores)
    if fault == "distance 0" and distances:
        return with_numbers(pores, rng.choice(distances), 0)
    return data + bytes_of([rng.choice((0, 1, 9))] * rng.choice((1, 1, 2)))


def fresh_numbers(rng, count):
    """Numbers for a view that owe nothing to what it has: mostly right, now and then
    with a distance that no record can hold, else broken."""
    pores = right_pores(rng, count)
    kind = rng.random()
    if kind < 0.04 and places_of_numbers(pores)[1]:
        at = rng.choice(places_of_numbers(pores)[1])
        return with_numbers(pores, at, rng.choice((
            LARGEST_NUMBER, 1 << 31, rng.randrange(1 << 24, 1 << 32))))
    if kind < 0.7:
        return to_numbers(pores)
    return broken_numbers(rng, pores, rng.choice(NUMBER_FAULTS[1:]))
