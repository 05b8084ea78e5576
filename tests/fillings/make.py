#!/usr/bin/env python3
"""Writes the fillings where `trace_fill` has its input and its output, and an index of them here.

usage: make.py            writes the three files; README.md describes them
       make.py --check    only says whether they are as it would write them

The answers stand in rows/, worked out by hand as far as they go. Before anything is written each is held against reference.py, whose
answer is then written whole."""
import os
import sys
from collections import Counter

HERE = os.path.dirname(os.path.abspath(__file__))
sys.path[:0] = [HERE, os.path.join(HERE, "..", "scripts"), os.path.join(HERE, "..", "..", "tools")]
sys.setrecursionlimit(5000)

import reference  # noqa: E402
from by_hand import agrees  # noqa: E402
from ndt.script import assemble  # noqa: E402
from rows import ROWS  # noqa: E402
from stored import settle, shortened  # noqa: E402

PROGRAM = os.path.join(HERE, "..", "..", "crates", "trace_fill")
STDIN, STDOUT, INDEX = os.path.join(PROGRAM, "stdin"), os.path.join(PROGRAM, "stdout"), os.path.join(HERE, "index.txt")


def built(row):
    """The old table, the filling, and the names' numbers. A filling calls things by the numbers of its table."""
    old, numbers = assemble(row.old)
    known = "".join("name %s %d\n" % item for item in numbers.items())
    filling, numbers = assemble(known + row.filling)
    return old, filling, numbers


def lines_of(answer):
    """A row's answer in the lines of `trace_fill`: a refusal's table stands in a line of its own."""
    if answer[0].startswith("refused"):
        said, which = answer[0].rsplit(" ", 1)
        return [said, "where " + which]
    return list(answer)


def faults(tables, answers):
    for row, (_, _, numbers), lines in zip(ROWS, tables, answers):
        by_hand = lines_of(row.answer)
        wrong = by_hand != lines if by_hand[0].startswith("refused") else not agrees(by_hand, lines, numbers)
        if wrong:
            yield "%s:\n  by hand      %s\n  the reference %s" % (row.label, "; ".join(by_hand), "; ".join(lines)[:1000])
    for label, times in Counter(row.label for row in ROWS).items():
        if times > 1:
            yield "%s: %d rows have this label" % (label, times)


def stream(tables):
    def number(n):
        return n.to_bytes(4, "little")
    return b"".join(number(len(old)) + old + number(row.goal) + number(len(filling)) + filling for row, (old, filling, _) in zip(ROWS, tables))


def printed(answers):
    return "".join("table %d\n%s\n\n" % (place, "\n".join(lines)) for place, lines in enumerate(answers))


def index():
    """A line a filling, numbered as the answers are."""
    lines = ["table\tanswer\tlabel\told\tgoal\tfilling\twhy"]
    for place, row in enumerate(ROWS):
        lines.append("\t".join((str(place), row.answer[0], row.label, shortened(row.old), str(row.goal), shortened(row.filling), row.reason)))
    return "".join(line + "\n" for line in lines)


def main():
    if sys.argv[1:] not in ([], ["--check"]):
        sys.exit(__doc__)
    tables = [built(row) for row in ROWS]
    answers = [reference.answer(old, row.goal, filling) for row, (old, filling, _) in zip(ROWS, tables)]
    found = list(faults(tables, answers))
    if found:
        sys.exit("\n".join(found))
    settle({STDIN: stream(tables), STDOUT: printed(answers).encode(), INDEX: index().encode()}, sys.argv[1:] == ["--check"])
    print("%d fillings" % len(ROWS))


if __name__ == "__main__":
    main()
