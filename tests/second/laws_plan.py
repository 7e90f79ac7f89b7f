"""Plans the cases of the laws of request [8].

Each trial of a law (laws_turns.py) gives the cases of its calls: of two removals the
first one, the second one on what it left, and the one for both, and so on. What the law
asks for is checked here too. The calls get just the room that each needs, or all the
same, as much as the longest record needs; of some trials the last two calls come once
more, with a byte too little. Each law stands before the other cases of a call; its own
calls can be of other kinds, as in a sequence.
"""

from functools import partial
from itertools import islice

from laws_trial import KINDS, longest
from laws_turns import TRIALS
from lend import lend_known

# The calls whose cases the laws stand before: those that need the fewest of their own.
BEFORE = {1: "part", 2: "join", 3: "part", 4: "pairs"}


def are_planned(calls):
    """Whether there are laws among the cases of these calls: a law's trials need the
    orders of all kinds."""
    return set(KINDS) <= set(calls)


def cases_in(rng, calls, results, rooms):
    """The cases of some calls, each in its room."""
    return [lend_known(rng, *call, result, room)
            for call, result, room in zip(calls, results, rooms)]


def trial_cases(rng, law, trial, turn):
    """The cases of a trial; the last one of its calls has the ways in which the law was
    met."""
    assert not trial.breaks, (law, trial.breaks)
    needed = [longest(result) for result in trial.results]
    rooms = [max(needed) if turn % 2 == 1 else size or max(needed) for size in needed]
    cases = cases_in(rng, trial.calls, trial.results, rooms)
    cases[-1].laws = tuple((law, way) for way in sorted(trial.ways))
    if turn % 4 == 3:
        short = max(0, max(needed[-2:]) - 1)
        cases += cases_in(rng, trial.calls[-2:], trial.results[-2:], [short] * 2)
    return cases


def laws_first(law, stream, rng, stock, budget):
    """Trials of a law, then the other cases of a call."""
    for turn, trial in enumerate(islice(TRIALS[law](rng), budget // 40)):
        yield from trial_cases(rng, law, trial, turn)
    yield from stream(rng, stock, budget)


def with_laws(makers, calls):
    """The makers of streams of cases, with the laws before those of some calls."""
    if are_planned(calls):
        for law, call in BEFORE.items():
            makers[call] = partial(laws_first, law, makers[call])
    return makers
