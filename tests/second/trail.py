"""The trail of one line: a 16-bit number for each element it draws.

A level turn counts as a code and draws nothing; every line starts at level 0,
and every other code changes the heading modulo a full turn of 2N directions.
Request [2] rounds the first heading.
"""

# The ways to round a first heading; what comes to 2N, also from a half, is a full turn.
ROUNDINGS = ("exact", "down", "half", "up", "full turn")


def scaled(direction, half_turn, b):
    """The start direction times 2N divided by 2 to the b, and what is left over."""
    return divmod(direction * 2 * half_turn, 1 << b)


def first_heading(direction, half_turn, b):
    """The start direction times 2N divided by 2 to the b, as the nearest heading,
    halves upwards, then modulo 2N."""
    heading, over = scaled(direction, half_turn, b)
    if 2 * over >= 1 << b:
        heading += 1
    return heading % (2 * half_turn)


def rounding(direction, half_turn, b):
    """How the first heading is rounded: one of ROUNDINGS."""
    heading, over = scaled(direction, half_turn, b)
    if over == 0:
        return "exact"
    if 2 * over < 1 << b:
        return "down"
    if heading + 1 == 2 * half_turn:
        return "full turn"
    return "half" if 2 * over == 1 << b else "up"


def trail(line, record):
    """Twice each drawn element's heading after the change, plus the level."""
    full_turn = 2 * record.half_turn
    level_turn = -(1 << (record.k - 1))
    heading = first_heading(line.start_direction, record.half_turn, record.b)
    level = 0
    elements = []
    for code in line.codes:
        if code == level_turn:
            level = 1 - level
        else:
            heading = (heading + code) % full_turn
            elements.append(2 * heading + level)
    return elements
