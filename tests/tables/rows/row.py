"""One test table: how it is written, how it is tested, and the answer that document 01 gives."""
from typing import NamedTuple

PASSES = "passes"

# Case 1 of document 01. Propositions 0 and 1 are A, 2 is the Impl; term 0 is the function (place 3), 1 its body (place 4).
CASE_1 = "check fun h. h : A -> A"


class Row(NamedTuple):
    label: str
    filling: bool
    script: str
    answer: str
    reason: str


def check(label, script, answer, reason):
    """A table tested as a check."""
    return Row(label, False, script, answer, reason)


def filling(label, script, answer, reason):
    """A table tested as a filling."""
    return Row(label, True, script, answer, reason)


def script(*statements):
    return "\n".join(statements)


def refused(number, place):
    return "refused %d %d" % (number, place)
