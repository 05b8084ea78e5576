#!/usr/bin/env python3
"""Writes the test tables where the program that replays them has its input and its output, and an index of them here.

usage: make.py            writes the three files; README.md describes them
       make.py --check    only says whether they are as it would write them

Every answer stands in rows/, worked out by hand. Before anything is written each is held against reference.py."""
import os
import sys
from collections import Counter

HERE = os.path.dirname(os.path.abspath(__file__))
sys.path[:0] = [HERE, os.path.join(HERE, "..", "..", "tools"), os.path.join(HERE, "..", "scripts")]

from ndt.script import assemble  # noqa: E402
from reference import answer  # noqa: E402
from rows import ROWS  # noqa: E402
from stored import settle  # noqa: E402

PROGRAM = os.path.join(HERE, "..", "..", "crates", "replay_tables")
STDIN = os.path.join(PROGRAM, "stdin")
STDOUT = os.path.join(PROGRAM, "stdout")
INDEX = os.path.join(HERE, "index.txt")
MODES = {False: "check", True: "filling"}


def number(value):
    return value.to_bytes(4, "little")


def stream(tables):
    """The count of tables; then for each its length, its mode and its bytes."""
    parts = [number(len(ROWS))]
    for row, table in zip(ROWS, tables):
        parts += [number(len(table)), bytes([row.filling]), table]
    return b"".join(parts)


def index():
    """A line a table, numbered as the lines of the answers are."""
    lines = [("table", "tested as", "answer", "label", "reason, by document 01")]
    lines += [(str(place), MODES[row.filling], row.answer, row.label, row.reason) for place, row in enumerate(ROWS, 1)]
    return "".join("\t".join(line) + "\n" for line in lines)


def faults(tables):
    """What keeps the list from being written."""
    for row, table in zip(ROWS, tables):
        computed = answer(table, row.filling)
        if computed != row.answer:
            yield "%s: %s by hand, %s by the reference" % (row.label, row.answer, computed)
    for label, times in Counter(row.label for row in ROWS).items():
        if times > 1:
            yield "%s: %d rows have this label" % (label, times)


def main():
    if sys.argv[1:] not in ([], ["--check"]):
        sys.exit(__doc__)
    tables = [assemble(row.script)[0] for row in ROWS]
    found = list(faults(tables))
    if found:
        sys.exit("\n".join(found))
    answers = "".join(row.answer + "\n" for row in ROWS)
    files = {STDIN: stream(tables), STDOUT: answers.encode(), INDEX: index().encode()}
    settle(files, sys.argv[1:] == ["--check"])
    print("%d tables" % len(ROWS))


if __name__ == "__main__":
    main()
