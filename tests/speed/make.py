#!/usr/bin/env python3
"""make.py FILE: writes the ten thousand scripts that the two checkers are timed on, each after its length (four bytes, low byte first).

They are drawn as those of tests/against_original, from batches that are not used there, and mixed."""
import os
import random
import sys

HERE = os.path.dirname(os.path.abspath(__file__))
sys.path.insert(0, os.path.join(HERE, "..", "against_original"))
sys.path.insert(0, os.path.join(HERE, "..", "..", "tools"))

from runs import counted  # noqa: E402
from scripts.batches import drawn  # noqa: E402

# Batches of a thousand: ordinary scripts, most of them right; small ones; some with a mistake or damage; and large ones, up to every limit.
BATCHES = {"wild": 5, "small": 1, "near": 1, "damaged": 1, "large": 2}
FIRST = 1000


def scripts():
    found = [table for family, count in BATCHES.items() for number in range(FIRST, FIRST + count) for table in drawn(family, number)]
    random.Random(1).shuffle(found)
    return found


if __name__ == "__main__":
    if len(sys.argv) != 2:
        sys.exit("usage: make.py FILE")
    with open(sys.argv[1], "wb") as file:
        for table in scripts():
            file.write(counted(table))
