#!/usr/bin/env python3
"""Explains a refusal in words: what its number means, at which term, and by which rule.

usage: explain.py [--names NAMES] TABLE refused NUMBER PLACE
       explain.py [--names NAMES] OLD FILLING refused NUMBER PLACE old|filling|edited

The words are those of docs/refusals.txt, the first cause that fits the term. docs/RULES.md and docs/FORMAT.md are the longer reading."""
import re
import sys

import vocabulary
from drawing.pictures import spellings
from ndt import layout
from ndt.oddities import Oddities
from ndt.show import prop_at, prop_text, record_text, term_at, term_text

REFUSALS = vocabulary.refusals()
# What the children of a term are called, where a refusal's cause speaks of them.
CHILDREN = {"Pair": ("first", "second"), "Function": ("body",), "Application": ("function", "argument"), "LetIn": ("head", "body"),
            "Case": ("head", "left arm", "right arm")}
EXPECTED = "expected field"
LONGEST = 300


def above(terms, number):
    """Where a term stands: which child it is, of which kind of term."""
    for record in terms:
        kind = layout.TERM_KINDS[record["kind"]]
        for child, link in zip(CHILDREN.get(kind.word, ()), kind.links):
            if record[link] == number:
                return "%s of %s" % (child, kind.word)
    return None


def fits(cause, refusal, kind, under):
    """Whether a cause can be it, by the kind of what is at the place and where that stands."""
    return cause.at == refusal.counts or all(part == under if " of " in part else kind in part.split(", ") for part in cause.at.split(" as "))


def cause_of(refusal, kind, under):
    return next((cause for cause in refusal.causes if fits(cause, refusal, kind, under)), None)


def shortened(text):
    return text if len(text) <= LONGEST else text[:LONGEST] + " .. (%d characters)" % len(text)


def about_term(parts, number):
    return "%s: %s" % (kind_of(parts, number), shortened(term_text(term_at(parts, number))))


def kind_of(parts, number):
    return layout.TERM_KINDS[parts.terms[number]["kind"]].word


def about_record(data, place):
    """What is at a place of the tests of records, and a line about it. Place 0 may be the expected field."""
    odd = Oddities(data)
    count = len(odd.parts.props)
    sort, number, records = ("prop", place, odd.parts.props) if place < count else ("term", place - count, odd.parts.terms)
    remarks = odd.remarks.get((sort, number))
    if not remarks:
        return EXPECTED, "the expected field: %d" % odd.parts.header["expected"]
    return sort, "%s %d: %s (it reads: %s)" % (sort, number, "; ".join(remarks), record_text(sort, records[number]))


def where(data, refusal, place, shown):
    """The kind of what is guilty, where it stands, and a line about it."""
    if refusal.counts == "record":
        kind, said = about_record(data, place)
        return kind, None, "at " + said
    if refusal.counts == "proposition":
        return None, None, "at prop %d: %s" % (place, shortened(prop_text(prop_at(layout.cut(data), place))))
    if refusal.counts == "term":
        parts = layout.cut(data)
        return kind_of(parts, place), above(parts.terms, place), "at term %d, %s" % (shown, about_term(parts, place))
    return None, None, None


def lines(data, refusal, place, shown):
    """The explanation of a refusal at a place of a table. `shown` is the place's number in the answer."""
    return worded(refusal, *where(data, refusal, place, shown))


def worded(refusal, kind, under, said):
    cause = cause_of(refusal, kind, under) or refusal
    page, section = cause.section.split(" ", 1)
    return ["%d: %s" % (refusal.number, cause.words), *([said] if said else []), "see docs/%s.md, section %s" % (page, section)]


def filled(old, filling, refusal, place, which):
    """A filling's run is refused at its own terms: the root has the Sorry's number, the others stand behind the old table's."""
    if which != "edited":
        return lines(old if which == "old" else filling, refusal, place, place)
    if "edited" in refusal.given_by:
        return worded(refusal, None, None, "at place %d of the edited table" % place)
    terms = layout.cut(old).header["terms"]
    return lines(filling, refusal, place - terms + 1 if place >= terms else 0, place)


def read(path):
    with open(path, "rb") as file:
        return file.read()


def main():
    given, names = sys.argv[1:], {}
    if given[:1] == ["--names"]:
        with open(given[1], encoding="utf-8") as file:
            names = spellings(file)
        del given[:2]
    if len(given) == 4 and given[1] == "refused":
        found = lines(read(given[0]), REFUSALS[int(given[2])], int(given[3]), int(given[3]))
    elif len(given) == 6 and given[2] == "refused":
        found = filled(read(given[0]), read(given[1]), REFUSALS[int(given[3])], int(given[4]), given[5])
    else:
        sys.exit(__doc__)
    print(re.sub(r"#(\d+)", lambda name: names.get(int(name.group(1)), name.group()), "\n".join(found)))


if __name__ == "__main__":
    main()
