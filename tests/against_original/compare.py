#!/usr/bin/env python3
"""Holds the program `trace` against the original checker, or where that is not at hand against stored answers.

usage: compare.py [--original PROGRAM] [--trace PROGRAM]     all stored batches
       compare.py --original PROGRAM --write                 stores the answers anew, if nothing disagrees
       compare.py --original PROGRAM --more FAMILY FROM TO   further batches of a drawn family, which are not stored

PROGRAM of --original is the built alice-run (else the variable ALICE_RUN names it). README.md has the rest."""
import argparse
import os
import sys
from collections import Counter

HERE = os.path.dirname(os.path.abspath(__file__))
TOP = os.path.join(HERE, "..", "..")
sys.path[:0] = [HERE, os.path.join(HERE, "..", "scripts"), os.path.join(TOP, "tools")]
sys.setrecursionlimit(10000)

import reference  # noqa: E402
from ndt.show import show  # noqa: E402
from runs import blocks, counted, digest, of_original, read_stored  # noqa: E402
from scripts.batches import batches, drawn  # noqa: E402
from scripts.shrink import shrunk  # noqa: E402

STORED = os.path.join(HERE, "answers.txt")
MOST_SHOWN = 10


def arguments():
    parser = argparse.ArgumentParser(description=__doc__, formatter_class=argparse.RawDescriptionHelpFormatter)
    parser.add_argument("--original", default=os.environ.get("ALICE_RUN"))
    parser.add_argument("--trace", nargs="+", default=[os.path.join(TOP, "tools", "run"), "trace"])
    parser.add_argument("--write", action="store_true")
    parser.add_argument("--more", nargs=3, metavar=("FAMILY", "FROM", "TO"))
    given = parser.parse_args()
    if (given.write or given.more) and not given.original:
        parser.error("this needs the original")
    return given


def answers(command, tables):
    """The lines of each answer, without its number."""
    return blocks(command, b"".join(map(counted, tables)), len(tables))


class Comparison:
    def __init__(self, given):
        self.trace, self.original = given.trace, [given.original, "--stream"] if given.original else None
        self.counts, self.shown = Counter(), 0

    def disagree(self, data):
        """Whether the checker and the original part on a table of the domain, or the checker and the reference on any."""
        ours = answers(self.trace, [data])[0]
        if self.original:
            theirs, inside = of_original(answers(self.original, [data])[0])
            if inside and ours != theirs:
                return True
        return ours != reference.answer(data)

    def report(self, batch, place, data, said):
        self.counts["disagreements"] += 1
        self.shown += 1
        if self.shown <= MOST_SHOWN:
            small = shrunk(data, self.disagree)
            print("%s, table %d: %s" % (batch, place, said))
            print(show(small), end="")
            for title, lines in (("trace", answers(self.trace, [small])[0]), ("reference", reference.answer(small))):
                print("  %s: %s" % (title, "; ".join(lines)[:400]))
            if self.original:
                print("  original: %s" % "; ".join(answers(self.original, [small])[0])[:400])

    def run(self, batch, tables, by_reference):
        """The digests of a batch's tables and answers. What parts from the original, or if asked from the reference, is reported."""
        ours = answers(self.trace, tables)
        theirs = [of_original(lines) for lines in answers(self.original, tables)] if self.original else [(None, False)] * len(tables)
        self.counts["scripts"] += len(tables)
        for place, (data, mine, (answered, inside)) in enumerate(zip(tables, ours, theirs)):
            self.counts[" ".join(mine[0].split()[:2 if mine[0].startswith("refused") else 1])] += 1
            self.counts["in the domain"] += inside
            if inside and mine != answered:
                self.report(batch, place, data, "not the original's answer")
            elif by_reference and mine != reference.answer(data):
                self.report(batch, place, data, "not the answer of document 01's rules")
        return digest(tables), digest("\n".join(lines).encode() + b"\n\n" for lines in ours)

    def replay(self, batch, tables, stored):
        """Against the original where it is at hand, and against what is stored."""
        before = self.counts["disagreements"]
        found = self.run(batch, tables, False)
        if stored is None or found[0] != stored[0]:
            print("%s: these are not the tables that the stored answers belong to" % batch)
            self.counts["disagreements"] += 1
        elif found[1] != stored[1]:
            print("%s: not the stored answers" % batch)
            if self.counts["disagreements"] == before:
                self.blame(batch, tables)
            self.counts["disagreements"] += self.counts["disagreements"] == before

    def blame(self, batch, tables):
        """Whether the reference can tell what is wrong with a batch."""
        for place, (data, mine) in enumerate(zip(tables, answers(self.trace, tables))):
            if mine != reference.answer(data):
                self.report(batch, place, data, "not the answer of document 01's rules")

    def summary(self):
        numbers = sorted((key for key in self.counts if key.startswith("refused")), key=lambda key: int(key.split()[1]))
        print("accepted %d, %s" % (self.counts["accepted"], ", ".join("%s: %d" % (key, self.counts[key]) for key in numbers)))
        domain = "%d in the domain held against the original" % self.counts["in the domain"] if self.original else "against stored answers"
        print("%d scripts, %s, %d disagreements" % (self.counts["scripts"], domain, self.counts["disagreements"]))


def main():
    given = arguments()
    comparison = Comparison(given)
    if given.more:
        family, start, end = given.more[0], int(given.more[1]), int(given.more[2])
        for number in range(start, end):
            comparison.run("%s-%d" % (family, number), drawn(family, number), True)
    elif given.write:
        lines = ["%s %s %s\n" % ((name,) + comparison.run(name, tables, True)) for name, tables in batches()]
        if not comparison.counts["disagreements"]:
            with open(STORED, "w") as file:
                file.writelines(["# batch, digest of its tables, digest of their answers: README.md\n"] + lines)
    else:
        stored = read_stored(STORED)
        for name, tables in batches():
            comparison.replay(name, tables, stored.get(name))
    comparison.summary()
    sys.exit(comparison.counts["disagreements"] > 0)


if __name__ == "__main__":
    main()
