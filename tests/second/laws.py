"""Checks the four laws of request [8] on records at random, through the host calls.

    python3 tests/second/laws.py --seed 1 --count 1500

Each law has so many trials (laws_turns.py), and a line that tells how often it was
checked and in which ways. Then come orders that are wrong on purpose (laws_wrong.py):
each has to break its own law, and no other. The exit status is not 0 if a law is
broken, if one of the ways was never met, or if a wrong order is not told by its law
alone.
"""

import argparse
import random
import sys
from collections import Counter
from itertools import islice

from laws_trial import LAWS
from laws_turns import TRIALS
from laws_wrong import WRONG

# How many trials of each law a wrong order gets, and how many broken ones are shown.
TRIALS_OF_WRONG = 120
MOST_SHOWN = 5
MOST_BYTES = 120


def trials(law, seed, count):
    """So many trials of a law; the same seed gives the same ones."""
    return islice(TRIALS[law](random.Random("%d law %d" % (seed, law))), count)


def show(law, trial):
    """A broken trial: what is broken, and each call with its bytes."""
    print("law %d broken: %s" % (law, "; ".join(trial.breaks)), file=sys.stderr)
    for call, numbers, slices in trial.calls:
        texts = [data[:MOST_BYTES].hex() + ("..." if len(data) > MOST_BYTES else "")
                 for data in slices]
        print("    %s %s %s" % (call, numbers, " ".join(texts)), file=sys.stderr)


def law_holds(law, seed, count):
    """Runs the trials of a law and prints its line; whether it holds and all its ways
    were met."""
    title, ways = LAWS[law]
    met, checked, broken = Counter(), 0, 0
    for trial in trials(law, seed, count):
        checked += trial.checked
        met.update(trial.ways)
        if trial.breaks:
            broken += 1
            if broken <= MOST_SHOWN:
                show(law, trial)
    print("law %d, %s: checked %d times, broken %d; %s" % (
        law, title, checked, broken,
        ", ".join("%s %d" % (way, met[way]) for way in ways)))
    missing = [way for way in ways if met[way] == 0]
    for way in missing:
        print("never met: law %d, %s" % (law, way), file=sys.stderr)
    return checked > 0 and broken == 0 and not missing


def wrong_is_told(wrong, seed, count):
    """Runs some trials of each law with a wrong order; whether its own law alone is
    broken."""
    broken = {}
    with wrong.in_place():
        for law in LAWS:
            broken[law] = sum(1 for trial in trials(law, seed, count) if trial.breaks)
    told = [law for law in LAWS if broken[law] > 0]
    print("wrong on purpose, %s: broken %s" % (wrong.mistake, ", ".join(
        "law %d %d times" % (law, broken[law]) for law in told) or "none"))
    return told == [wrong.law]


def main():
    parser = argparse.ArgumentParser(description="checks the laws of request [8]")
    parser.add_argument("--seed", type=int, default=1)
    parser.add_argument("--count", type=int, default=1500)
    chosen = parser.parse_args()
    right = [law_holds(law, chosen.seed, chosen.count) for law in LAWS]
    right += [wrong_is_told(wrong, chosen.seed, TRIALS_OF_WRONG) for wrong in WRONG]
    missing = set(LAWS) - {wrong.law for wrong in WRONG}
    print("laws: %s" % ("all hold, and each tells what is wrong on purpose"
                        if all(right) and not missing else "FAILED"))
    return 0 if all(right) and not missing else 1


if __name__ == "__main__":
    sys.exit(main())
