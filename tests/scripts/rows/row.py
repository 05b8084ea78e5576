"""One script: how it is written, and the answer that document 01 gives."""
from typing import NamedTuple


class Row(NamedTuple):
    label: str
    script: str
    answer: tuple


def row(label, script, *answer):
    """A term and what it is held to. The answer's lines are those of `trace`, conclusions in the notation of scripts, with s0, s1 .. for
    serials. Only the first has to be there: of an acceptance the records may be left out, and so may the goals, the counts and any
    conclusion."""
    return Row(label, "check " + script, answer)


def written(label, statements, *answer):
    """The same of a table that is written out."""
    return Row(label, "\n".join(statements), answer)
