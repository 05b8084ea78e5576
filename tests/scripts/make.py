#!/usr/bin/env python3
"""Writes the scripts where `trace` has its input and its output, and an index of them here.

usage: make.py            writes the three files; README.md describes them
       make.py --check    only says whether they are as it would write them

The answers stand in rows/, worked out by hand as far as they go. Before anything is written each is held against reference.py, whose
answer is then written whole."""
import os
import sys
from collections import Counter

HERE = os.path.dirname(os.path.abspath(__file__))
sys.path[:0] = [HERE, os.path.join(HERE, "..", "..", "tools")]
sys.setrecursionlimit(5000)

import reference  # noqa: E402
from by_hand import agrees  # noqa: E402
from ndt.script import assemble  # noqa: E402
from rows import ROWS  # noqa: E402
from stored import settle, shortened  # noqa: E402

PROGRAM = os.path.join(HERE, "..", "..", "crates", "trace")
STDIN, STDOUT, INDEX = os.path.join(PROGRAM, "stdin"), os.path.join(PROGRAM, "stdout"), os.path.join(HERE, "index.txt")


# The files

def faults(tables):
    for row, (data, numbers) in zip(ROWS, tables):
        lines = reference.answer(data)
        if not agrees(row.answer, lines, numbers):
            yield "%s:\n  by hand      %s\n  the reference %s" % (row.label, "; ".join(row.answer), "; ".join(lines)[:1000])
    for label, times in Counter(row.label for row in ROWS).items():
        if times > 1:
            yield "%s: %d rows have this label" % (label, times)


def stream(tables):
    return b"".join(len(data).to_bytes(4, "little") + data for data, _ in tables)


def answers(tables):
    return "".join("table %d\n%s\n\n" % (place, "\n".join(reference.answer(data))) for place, (data, _) in enumerate(tables))


def index():
    """A line a script, numbered as the answers are."""
    lines = ["table\tanswer\tlabel\tscript"]
    lines += ["%d\t%s\t%s\t%s" % (place, row.answer[0], row.label, shortened(row.script)) for place, row in enumerate(ROWS)]
    return "".join(line + "\n" for line in lines)


def main():
    if sys.argv[1:] not in ([], ["--check"]):
        sys.exit(__doc__)
    tables = [assemble(row.script) for row in ROWS]
    found = list(faults(tables))
    if found:
        sys.exit("\n".join(found))
    files = {STDIN: stream(tables), STDOUT: answers(tables).encode(), INDEX: index().encode()}
    settle(files, sys.argv[1:] == ["--check"])
    print("%d scripts" % len(ROWS))


if __name__ == "__main__":
    main()
