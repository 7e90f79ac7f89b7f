"""What the cases have to meet of the laws of request [8]; part of tables.py."""

from laws_plan import are_planned
from laws_trial import LAWS


def laws_to_meet(calls):
    """Each law with each way in which the cases of these calls have to meet it."""
    if not are_planned(calls):
        return []
    return [(law, way) for law, (_, ways) in LAWS.items() for way in ways]


def law_table(met, calls):
    """How often each law was met in each of its ways, as text."""
    lines = []
    for law, way in laws_to_meet(calls):
        title, ways = LAWS[law]
        if way == ways[0]:
            lines.append("law %d, %s" % (law, title))
        lines.append("   %-25s%12s" % (way, met.laws[law, way] or "."))
    return "\n".join(lines)
