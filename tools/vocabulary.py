"""The tables of words, docs/refusals.txt and docs/rules.txt. They say themselves what their columns are."""
import os
from typing import NamedTuple

DOCS = os.path.join(os.path.dirname(os.path.abspath(__file__)), "..", "docs")
NONE = "-"


class Cause(NamedTuple):
    """One way to a refusal, at a term or record as `at` describes it."""
    at: str
    words: str
    section: str
    definitions: tuple


class Refusal(NamedTuple):
    """`counts` is what the place counts. A number that is explained in one way only has itself as its one cause."""
    number: int
    counts: str
    given_by: tuple
    words: str
    section: str
    causes: tuple


class Rule(NamedTuple):
    number: int
    name: str
    premises: int
    serials: tuple
    label: tuple
    definitions: tuple


def rows(file):
    """The columns of each row of a table."""
    with open(os.path.join(DOCS, file), encoding="utf-8") as lines:
        for line in lines:
            if line.strip() and not line.startswith("#"):
                yield [column.strip() for column in line.split(" | ")]


def parts(column):
    return () if column == NONE else tuple(column.split(", "))


def refusals():
    """All refusals, by number."""
    found, last = {}, None
    for row in rows("refusals.txt"):
        if row[0].startswith("- "):
            at, words, section, definitions = row
            last = last._replace(causes=last.causes + (Cause(at[2:], words, section, parts(definitions)),))
            found[last.number] = last
            continue
        number, place, givers, words, section, definitions = row
        counts, _, at = place.partition(": ")
        own = Cause(at or counts, words, section, parts(definitions))
        last = Refusal(int(number), counts, parts(givers), words, section, () if definitions == NONE else (own,))
        found[last.number] = last
    return found


def rules():
    """All rules in the order of their numbers."""
    found = [Rule(int(number), name, int(premises), parts(serials), () if label == NONE else tuple(label.split()), parts(definitions))
             for number, name, premises, serials, label, definitions in rows("rules.txt")]
    if [rule.number for rule in found] != list(range(len(found))):
        raise ValueError("docs/rules.txt: the numbers do not count from 0 up")
    return found
