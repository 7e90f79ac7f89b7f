"""Makes lists of pair orders at random: right ones, wrong ones, other shapes.

A right list keeps in mind which lines are neighbours by then, and joins or parts
whatever pair comes next. A wrong one has an order at its first, its last or any
place that is refused, and some have another behind it. What comes of a list is not
assumed here; pairs.py decides.
"""

from pairs import JOIN, ORDER_BYTES, PART, bytes_of

MOST_ORDERS = 200
# Which pairs a list names: any, a few again and again, those of the last lines,
# those far apart, lines with themselves, or those that are neighbours at first.
STYLES = ("any", "any", "any", "few", "last lines", "ends", "own", "neighbours")
# First numbers that are neither 0 nor 1; some are but for their high or low byte.
OTHER_KINDS = (2, 3, 255, 256, 257, 512, 0x7FFF, 0x8000, 0x8001, 65535)


def list_length(rng):
    """How many orders a list has: mostly few."""
    least, most = rng.choices(((1, 1), (2, 4), (5, 20), (21, 60), (61, MOST_ORDERS)),
                              (20, 36, 30, 10, 4))[0]
    return rng.randint(least, most)


def fresh_pair(rng, style, count, at_first):
    """Two lines that owe nothing to the orders before."""
    if style == "last lines":
        return max(0, count - rng.randint(1, 2)), rng.randrange(count)
    if style == "ends":
        ends = [line for line in (0, 1, count // 2, count - 2, count - 1)
                if 0 <= line < count]
        return rng.choice(ends), rng.choice(ends)
    if style == "own" and rng.random() < 0.7:
        line = rng.randrange(count)
        return line, line
    if style == "neighbours" and at_first:
        return rng.choice(at_first)
    return rng.randrange(count), rng.randrange(count)


def right_list(rng, index, count, length):
    """So many orders that can be obeyed one after another; of no lines none can."""
    if count == 0:
        return [(rng.choice((JOIN, PART)), 0, 0)] * length
    lists = [] if index is None else index.neighbours
    at_first = [(line, lower) for line, listed in enumerate(lists) for lower in listed]
    joined = set(at_first)
    style = rng.choice(STYLES)
    again = 0.85 if style == "few" else rng.choice((0.0, 0.2, 0.5))
    orders = []
    for _ in range(length):
        first, second = fresh_pair(rng, style, count, at_first)
        if orders and rng.random() < again:
            _, first, second = rng.choice(orders)
        if rng.random() < 0.4:
            first, second = second, first
        pair = (max(first, second), min(first, second))
        orders.append((PART if pair in joined else JOIN, first, second))
        joined ^= {pair}
    return orders


def some_place(rng, orders):
    """The first place of a list, its last, or any."""
    last = len(orders) - 1
    return rng.choice((0, last, rng.randint(0, last)))


def far_line(rng, line, count):
    """A line number that is mostly not below the count."""
    return min(65535, rng.choice((count, count, count + 1, line + 256, line + 1024,
                                  line + 32768, 65535, rng.randint(count, 65535))))


def with_wrong_order(rng, orders, count):
    """The list with one order exchanged: a line that is not there (15), or a join
    where a part is right, or a part where a join is (18)."""
    place = some_place(rng, orders)
    kind, first, second = orders[place]
    way = rng.randrange(4)
    if way == 0:
        first = far_line(rng, first, count)
    elif way == 1:
        second = far_line(rng, second, count)
    else:
        kind = JOIN + PART - kind
    return orders[:place] + [(kind, first, second)] + orders[place + 1:]


def with_other_shape(rng, orders):
    """Bytes of no such list: empty, cut or with bytes over, or a first number."""
    data = bytes_of(orders)
    way = rng.randrange(6)
    if way == 0:
        return b""
    if way == 1:
        return data[:-rng.randint(1, ORDER_BYTES - 1)]
    if way == 2:
        return data + rng.randbytes(rng.randint(1, ORDER_BYTES - 1))
    place = some_place(rng, orders)
    kind = rng.choice(OTHER_KINDS + (rng.randint(2, 65535),))
    other = (kind, *orders[place][1:])
    return bytes_of(orders[:place] + [other] + orders[place + 1:])


def random_list(rng, index, count):
    """A list's bytes for a view: mostly right, else with wrong orders, or misshapen."""
    orders = right_list(rng, index, count, list_length(rng))
    chance = rng.random()
    if chance < 0.35:
        orders = with_wrong_order(rng, orders, count)
    if chance < 0.1:
        orders = with_wrong_order(rng, orders, count)
    if chance < 0.05 or chance > 0.95:
        return with_other_shape(rng, orders)
    return bytes_of(orders)
