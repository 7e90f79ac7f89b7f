"""What is told apart among accepted calls on pores; it is only counted.

A reading, a rewriting or a removal can be of several of these ways at once. They say
which lines, elements and padding bits there were, and what became of a payload.
"""

from model import PORES_TYPE, QUALITY_TYPE
from pores import (FIRST_BYTES, LEAST_BITS, MOST_BITS, elements_in, is_at_fault,
                   passes_of, payload_size, read)

READINGS = (("no lines", "no line with pores", "a line without pores",
             "distance of one element", "distance past all ones",
             "zero elements in padding")
            + tuple("e %d" % e for e in range(LEAST_BITS, MOST_BITS + 1))
            + tuple("%d padding bits" % bits for bits in range(8)))
REWRITINGS = ("mended", "unchanged", "as long, other bytes", "longer", "shorter",
              "another resolution", "another e", "distances alone",
              "distance above 65535", "no lines")
REMOVALS = ("pores alone", "pores and local quality", "several pore segments",
            "pores kept", "pores dropped", "lines without pores gone",
            "pores moved up", "all ones kept", "no line left", "payload shorter",
            "payload as long", "payload unchanged")


def reading(pores):
    """In which ways pores were read: some of READINGS."""
    with_pores = [line for line in pores.lines if line]
    passes = [passes_of(distance, pores.e) for line in with_pores for distance in line]
    padding = 8 * (payload_size(pores) - FIRST_BYTES) - elements_in(pores) * pores.e
    yield "e %d" % pores.e
    yield "%d padding bits" % padding
    if not pores.lines:
        yield "no lines"
    elif not with_pores:
        yield "no line with pores"
    elif len(with_pores) < len(pores.lines):
        yield "a line without pores"
    if 0 in passes:
        yield "distance of one element"
    if any(passes):
        yield "distance past all ones"
    if padding >= pores.e:
        yield "zero elements in padding"


def length_change(old, new):
    """How a payload's length differs from what it was."""
    if len(new) == len(old):
        return "as long"
    return "longer" if len(new) > len(old) else "shorter"


def rewriting(view, place, new_view):
    """In which ways a payload was rewritten: some of REWRITINGS."""
    segment, new_segment = view.segments[place], new_view.segments[place]
    new = read(new_view, new_segment)
    if any(distance > 65535 for line in new.lines for distance in line):
        yield "distance above 65535"
    if not new.lines:
        yield "no lines"
    if is_at_fault(view, segment):
        yield "mended"
        return
    change = length_change(segment.payload, new_segment.payload)
    if segment.payload == new_segment.payload:
        yield "unchanged"
    else:
        yield change + ", other bytes" if change == "as long" else change
    old = read(view, segment)
    if new.resolution != old.resolution:
        yield "another resolution"
    if new.e != old.e:
        yield "another e"
    if (new.resolution, new.e) == (old.resolution, old.e) and new.lines != old.lines:
        yield "distances alone"


def ways_of_segment(old, new, removed):
    """In which ways a removal changed the pores of one segment."""
    kept = [line for line in range(len(old.lines)) if line not in removed]
    if any(old.lines[line] for line in kept):
        yield "pores kept"
    if any(old.lines[line] for line in removed):
        yield "pores dropped"
    if not all(old.lines[line] for line in removed):
        yield "lines without pores gone"
    if any(old.lines[line] for line in kept if line > min(removed)):
        yield "pores moved up"
    if any(passes_of(distance, new.e) for line in new.lines for distance in line):
        yield "all ones kept"
    if not new.lines:
        yield "no line left"


def removal(view, new_view, removed):
    """In which ways a removal changed a view's pores: some of REMOVALS."""
    types = [segment.type for segment in view.segments]
    if PORES_TYPE not in types:
        return
    yield "pores and local quality" if QUALITY_TYPE in types else "pores alone"
    if types.count(PORES_TYPE) > 1:
        yield "several pore segments"
    found = set()
    for segment, new in zip(view.segments, new_view.segments):
        if segment.type == PORES_TYPE:
            pores, left = read(view, segment), read(new_view, new)
            found.update(ways_of_segment(pores, left, removed))
            found.add("payload " + length_change(segment.payload, new.payload))
            if segment.payload == new.payload:
                found.add("payload unchanged")
    yield from sorted(found)
