#!/usr/bin/env python3
"""Holds `trace_fill` against `trace` of the edited table, and against the original's fillings or, where it is not at hand, stored answers.

usage: agree.py                  some batches of each family
       agree.py --all            all batches
       agree.py --all --write    stores the answers anew, if nothing disagrees

The original is the built alice-run, which --original or the variable ALICE_RUN names; --write needs it. README.md has the rest."""
import argparse
import os
import subprocess
import sys
import tempfile
from collections import Counter

HERE = os.path.dirname(os.path.abspath(__file__))
TOP = os.path.join(HERE, "..", "..")
sys.path[:0] = [HERE] + [os.path.join(TOP, *path) for path in (("tests", "fillings"), ("tests", "against_original"), ("tests", "scripts"), ("tools",))]
sys.setrecursionlimit(10000)

import reference  # noqa: E402
from demand import accepted, is_edited, is_refused, violation  # noqa: E402
from ndt.show import show  # noqa: E402
from runs import blocks, counted, digest, of_original, read_stored  # noqa: E402
from triples import BATCHES, batch  # noqa: E402

STORED = os.path.join(HERE, "answers.txt")
# Without --all one batch in so many is run; and of each batch so many fillings go through the program `fill` too.
SHARE = 10
BY_PROGRAM = 10
MOST_SHOWN = 5


def arguments():
    parser = argparse.ArgumentParser(description=__doc__, formatter_class=argparse.RawDescriptionHelpFormatter)
    parser.add_argument("--original", default=os.environ.get("ALICE_RUN"))
    for program in ("trace", "trace_fill", "fill"):
        parser.add_argument("--" + program, nargs="+", default=[os.path.join(TOP, "tools", "run"), program])
    parser.add_argument("--all", action="store_true")
    parser.add_argument("--write", action="store_true")
    given = parser.parse_args()
    if given.write and not (given.all and given.original):
        parser.error("--write needs the original, and all batches")
    return given


def entry(triple):
    """A triple as the programs read it."""
    return counted(triple.old) + triple.goal.to_bytes(4, "little") + counted(triple.filling)


def edited(triple):
    return reference.edited(triple.old, triple.filling, triple.hole.term)


def short(lines):
    """An answer of `trace_fill` in the lines of `fill`."""
    if is_refused(lines):
        return ["%s %s" % (lines[0], lines[1].split()[1])]
    return [line.partition(" | ")[0] for line in lines[:-1]]


class Agreement:
    def __init__(self, given):
        self.given, self.counts, self.found = given, Counter(), []

    def marks(self, tables):
        return blocks(self.given.trace, b"".join(map(counted, tables)), len(tables))

    def fillings(self, command, triples):
        return blocks(command, b"".join(map(entry, triples)), len(triples))

    def edited_marks(self, triples, answers):
        """The checks of the edited tables, where the answer is about one."""
        places = [i for i, mine in enumerate(answers) if is_edited(mine) and triples[i].hole]
        found = dict(zip(places, self.marks([edited(triples[i]) for i in places])))
        return [found.get(i) for i in range(len(triples))]

    def by_program(self, triple):
        """What `fill` prints, and the edited table that it writes, if it does."""
        with tempfile.TemporaryDirectory() as folder:
            old, filling, written = (os.path.join(folder, name) for name in ("old", "filling", "edited"))
            for path, data in ((old, triple.old), (filling, triple.filling)):
                with open(path, "wb") as file:
                    file.write(data)
            run = subprocess.run(self.given.fill + [old, str(triple.goal), filling, written], stdout=subprocess.PIPE, check=True)
            if not os.path.exists(written):
                return run.stdout.decode().splitlines(), None
            with open(written, "rb") as file:
                return run.stdout.decode().splitlines(), file.read()

    def report(self, name, triple, said):
        self.counts["disagreements"] += 1
        self.found.append((len(triple.old) + len(triple.filling), name, triple, said))

    def run(self, name, triples, by_reference):
        """The digests of a batch's triples and answers; what is wrong is reported."""
        answers = self.fillings(self.given.trace_fill, triples)
        olds, fresh = self.marks([triple.old for triple in triples]), self.edited_marks(triples, answers)
        self.counts["fillings"] += len(triples)
        for triple, mine, old, new in zip(triples, answers, olds, fresh):
            self.count(triple, mine, old, new)
            said = violation(triple, mine, old, new)
            if said is None and by_reference and mine != reference.answer(triple.old, triple.goal, triple.filling):
                said = "not the answer of document 01's rules"
            if said:
                self.report(name, triple, said)
        self.against_original(name, triples, answers)
        for triple, mine in list(zip(triples, answers))[:BY_PROGRAM]:
            wanted = short(mine), None if is_refused(mine) else edited(triple)
            if self.by_program(triple) != wanted:
                self.report(name, triple, "not what `fill` prints and writes")
        return digest(map(entry, triples)), digest("\n".join(lines).encode() + b"\n\n" for lines in answers)

    def against_original(self, name, triples, answers):
        if not self.given.original:
            return
        theirs = map(of_original, self.fillings([self.given.original, "--fill"], triples))
        for triple, mine, (answered, inside) in zip(triples, answers, theirs):
            # The original makes as many propositions as it likes, also in an old table.
            inside = inside and not mine[0].startswith("refused 30 ")
            self.counts["in the domain"] += inside
            if inside and mine != answered:
                self.report(name, triple, "not the original's answer")

    def count(self, triple, mine, old, new):
        if is_refused(mine):
            self.counts["refused " + mine[1].split()[1]] += 1
        elif triple.hole and new:
            self.counts["accepted"] += 1
            self.counts["refused later"] += is_refused(new)
            self.counts["moved"] += accepted(mine).serials > 0 and accepted(old).serials > triple.hole.serials

    def replay(self, name, triples, stored):
        """The same, and the digests are the stored ones."""
        before = self.counts["disagreements"]
        asked, answered = self.run(name, triples, False)
        if stored is None or asked != stored[0]:
            print("%s: these are not the fillings that the stored answers belong to" % name)
            self.counts["disagreements"] += 1
        elif answered != stored[1] and self.counts["disagreements"] == before:
            print("%s: not the stored answers" % name)
            self.counts["disagreements"] += 1

    def summary(self):
        for _, name, triple, said in sorted(self.found, key=lambda found: found[0])[:MOST_SHOWN]:
            print("%s, goal %d: %s\n%s%s" % (name, triple.goal, said, show(triple.old), show(triple.filling)), end="")
        counts = self.counts
        print("accepted %d, of which %d move later serials and %d have an edited table that is refused 30 after the hole; refused in the old table %d, "
              "in the filling %d, in the edited table %d"
              % tuple(counts[key] for key in ("accepted", "moved", "refused later", "refused old", "refused filling", "refused edited")))
        domain = "%d in the domain held against the original" % counts["in the domain"] if self.given.original else "against stored answers"
        print("%d fillings, %s, %d disagreements" % (counts["fillings"], domain, counts["disagreements"]))


def names(whole):
    for family, count in BATCHES.items():
        for number in range(count if whole else max(1, count // SHARE)):
            yield family, number


def main():
    given = arguments()
    agreement, lines = Agreement(given), []
    stored = {} if given.write else read_stored(STORED)
    for family, number in names(given.all):
        name, triples = "%s-%d" % (family, number), batch(family, number)
        if given.write:
            lines.append("%s %s %s\n" % ((name,) + agreement.run(name, triples, True)))
        else:
            agreement.replay(name, triples, stored.get(name))
    if given.write and not agreement.counts["disagreements"]:
        with open(STORED, "w") as file:
            file.writelines(["# batch, digest of its triples, digest of their answers: README.md\n"] + lines)
    agreement.summary()
    sys.exit(agreement.counts["disagreements"] > 0)


if __name__ == "__main__":
    main()
