"""What a call comes to, and the judged inputs that several calls start from.

An Outcome is worked out with all the room that the call wants; answers.py has one for
each call and then holds it against the lent output.
"""

from dataclasses import dataclass
from functools import lru_cache

import card
import pairs
from build import build
from judge import judge
from model import Refusal


@dataclass
class Outcome:
    """A refusal, or what is written; `length` counts elements of `size` bytes.

    The fault (tables.faults_of) and the ways (tables.WAYS) in which a call was
    answered are only counted. The walk is that of a list of pairs that has come to
    its orders.
    """

    number: int
    place: int = 0
    length: int = 0
    written: bytes = b""
    size: int = 1
    fault: str = ""
    ways: tuple = ()
    walk: pairs.Walk = None


def given(judge_it, *arguments):
    """What a judge gives, or the refusal that it raises."""
    try:
        return judge_it(*arguments)
    except Refusal as refusal:
        return refusal


def raised(result):
    """What was judged; a refusal is raised anew."""
    if isinstance(result, Refusal):
        raise Refusal(result.number, result.place, result.fault)
    return result


@lru_cache(maxsize=128)
def judged(data):
    """The record or the refusal; kept, as many cases lend the same record."""
    return given(judge, data)


def read_card(size, data):
    """A card's object, and the bytes of its record: 27, 9 and 8, 10, 19."""
    found = card.read(size, data)
    return found, build(found.record)


@lru_cache(maxsize=128)
def judged_card(size, data):
    """The card's object and its record, or the refusal; kept likewise."""
    return given(read_card, size, data)


def record_of(data):
    """The record; its refusal is raised otherwise."""
    return raised(judged(data))


def written(data, size=1, ways=()):
    """Acceptance with the bytes written."""
    return Outcome(0, 0, len(data) // size, data, size, ways=ways)
