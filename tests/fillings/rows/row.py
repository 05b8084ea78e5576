"""One filling: how the tables are written, which goal is filled, and the answer that document 01 gives."""
from typing import NamedTuple


class Row(NamedTuple):
    label: str
    old: str
    goal: int
    filling: str
    answer: tuple
    reason: str


def row(label, old, goal, filling, *answer, why):
    """A term and what it is held to, a goal's number, and a term. The answer's first line is that of `fill`, the others are those of `trace_fill`, conclusions
    in the notation of scripts, with s0, s1 .. for serials. Of an acceptance the records may be left out, and so may the goals, the counts and any conclusion."""
    return Row(label, "check " + old, goal, "filling " + filling, answer, why)


def written(label, old, goal, filling, *answer, why):
    """The same of tables that are written out."""
    return Row(label, "\n".join(old), goal, "\n".join(filling), answer, why)
