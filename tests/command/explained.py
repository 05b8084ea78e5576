#!/usr/bin/env python3
"""Holds tools/explain.py against the refused scripts of tests/scripts: each has its cause in docs/refusals.txt, and each cause there is met, but for those
of refusals that no script gets."""
import os
import sys

HERE = os.path.dirname(os.path.abspath(__file__))
sys.path[:0] = [os.path.join(HERE, "..", "..", "tools"), os.path.join(HERE, "..", "scripts")]
sys.setrecursionlimit(5000)

import explain  # noqa: E402
import reference  # noqa: E402
from ndt.script import assemble  # noqa: E402
from rows import ROWS  # noqa: E402

# Who refuses a script that is marked. (The programs' rooms are long enough.)
GIVERS = {"table", "checking", "synthesis"}

# Projections where two rules could have refused.
MORE = (
    "check fun h. fst (let (x, k) = fst h in unit) : A -> B",
    "check fun h. fst (case fst h of x. unit ; y. unit end) : A -> B",
    "check fun h. fst h h : A -> B",
)


def refusals():
    """Each refused script with its table, its number and its place."""
    for script in [row.script for row in ROWS] + list(MORE):
        data = assemble(script)[0]
        said = reference.answer(data)[0].split()
        if said[0] == "refused":
            yield script, data, int(said[1]), int(said[2])


def main():
    met, count = set(), 0
    for script, data, number, place in refusals():
        refusal = explain.REFUSALS[number]
        kind, under, _ = explain.where(data, refusal, place, place)
        cause = explain.cause_of(refusal, kind, under)
        if cause is None:
            sys.exit("no cause for refusal %d at %d: %s" % (number, place, script[:200]))
        met.add((number, cause))
        count += 1
    wanted = ((refusal.number, cause) for refusal in explain.REFUSALS.values() if GIVERS.intersection(refusal.given_by) for cause in refusal.causes)
    unmet = ["%d, %s" % (number, cause.words) for number, cause in wanted if (number, cause) not in met]
    if unmet:
        sys.exit("no script gets: " + "; ".join(unmet))
    print("%d refusals explained" % count)


main()
