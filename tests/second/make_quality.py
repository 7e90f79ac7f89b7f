"""Makes local quality at random: right payloads and values, and broken ones.

A break is named after the fault it aims at (model.QUALITY_FAULTS). What comes of
it is not assumed here; quality.py decides. Payloads are short: cells are chosen so
that few bytes hold them, and a view that is too large for that gets bytes that
cannot be right.
"""

from bits import with_bit_turned
from quality import (FIRST_BYTES, MOST_BITS, PAYLOAD_FAULTS, VALUE_FAULTS, Quality,
                     bytes_for, number_of_cells, to_payload, to_values)

MOST_PAYLOAD = 60


def random_size(rng):
    """A view's width or height: small, next to a cell's largest, or any."""
    kind = rng.randrange(20)
    if kind == 0:
        return 0
    if kind == 1:
        return rng.choice((254, 255, 256, 257, 510, 511))
    if kind == 2:
        return rng.choice((65535, rng.getrandbits(16)))
    return rng.randint(1, rng.choice((3, 12, 40, 300)))


def random_cell(rng, size):
    """A cell's width or height for a view's: at a limit, about the view's, or any."""
    cell = rng.choice((1, 1, 255, rng.randint(1, 8), rng.randint(1, 255),
                       size - 1, size, size + 1, size // 2))
    return max(1, min(255, cell))


def random_values(rng, count, bits):
    """A value for each cell: any, all zeros, or all ones."""
    style = rng.choice(("any", "any", "any", "zeros", "ones"))
    if style == "any":
        return [rng.getrandbits(bits) for _ in range(count)]
    return [0 if style == "zeros" else (1 << bits) - 1] * count


def right_quality(rng, view, most=MOST_PAYLOAD):
    """A Quality for the view whose cells take `most` bytes or fewer; None if chance
    finds none."""
    for _ in range(12):
        cell_width = random_cell(rng, view.width)
        cell_height = random_cell(rng, view.height)
        bits = rng.randint(1, MOST_BITS)
        count = number_of_cells(view, cell_width, cell_height)
        if bytes_for(count, bits) <= most:
            return Quality(cell_width, cell_height, bits,
                           random_values(rng, count, bits))
    return None


def with_byte(data, at, byte):
    return data[:at] + bytes([byte]) + data[at + 1:]


def with_first_bytes(rng, data, fault):
    """Payload or values broken in the first three bytes."""
    if fault == "under 3 bytes":
        return data[:rng.randrange(FIRST_BYTES)]
    if fault == "cell width 0":
        return with_byte(data, 0, 0)
    if fault == "cell height 0":
        return with_byte(data, 1, 0)
    if fault == "bits 0":
        return with_byte(data, 2, 0)
    return with_byte(data, 2, rng.choice((9, 9, 10, 16, 128 + data[2], 255)))


def with_length(rng, data, fault):
    """Payload or values with bytes too few or too many."""
    if fault == "too few bytes":
        return data[:max(FIRST_BYTES, len(data) - rng.choice((1, 1, 1, 2, 9)))]
    return data + rng.choice((b"\0", b"\0", b"\xff", bytes(5), rng.randbytes(9)))


def with_padding(rng, payload, used):
    """A payload of so many used bits with a padding bit turned, where it has one."""
    spare = 8 * len(payload) - used
    if spare == 0:
        return payload
    return with_bit_turned(payload, used + rng.randrange(spare))


def with_value(rng, values):
    """Values of which one does not fit the bits, where one can be that large."""
    bits = values[2]
    if bits == MOST_BITS or len(values) == FIRST_BYTES:
        return values
    at = rng.choice((FIRST_BYTES, len(values) - 1,
                     rng.randrange(FIRST_BYTES, len(values))))
    return with_byte(values, at, rng.choice((1 << bits, 128, 255, values[at] | 128)))


def broken(rng, data, fault, used):
    """A right payload of `used` bits, or right values, broken in one way."""
    if fault in ("too few bytes", "too many bytes"):
        return with_length(rng, data, fault)
    if fault == "1 in padding":
        return with_padding(rng, data, used)
    if fault == "value above its bits":
        return with_value(rng, data)
    return with_first_bytes(rng, data, fault)


def hopeless(rng):
    """Payload or values for a view that is too large for few bytes."""
    return (bytes([rng.randint(1, 255), rng.randint(1, 255), rng.randint(1, 9)])
            + rng.randbytes(rng.choice((0, 1, rng.randint(0, 30)))))


def random_payload(rng, view):
    """A payload for the view, right or broken."""
    quality = right_quality(rng, view)
    if quality is None:
        return hopeless(rng)
    payload = to_payload(quality)
    if rng.random() < 0.7:
        return payload
    used = 8 * FIRST_BYTES + len(quality.cells) * quality.bits
    return broken(rng, payload, rng.choice(PAYLOAD_FAULTS[1:]), used)


def broken_values(rng, values):
    """Right values broken in one way."""
    return broken(rng, values, rng.choice(VALUE_FAULTS[1:]), 8 * len(values))


def fresh_values(rng, view):
    """Values for the view that owe nothing to what it has, mostly right."""
    quality = right_quality(rng, view)
    if quality is None:
        return hopeless(rng)
    values = to_values(quality)
    return values if rng.random() < 0.7 else broken_values(rng, values)
