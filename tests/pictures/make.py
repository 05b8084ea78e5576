#!/usr/bin/env python3
"""Draws document 01's numbered cases, and tests every picture that the scripts of tests/scripts give.

usage: make.py            writes stored/; README.md describes it
       make.py --check    only says whether it is as it would be written

The answers drawn are those of tests/scripts/reference.py, which are also what `trace` has to print. So no program is needed here."""
import os
import re
import sys
import xml.dom.minidom

HERE = os.path.dirname(os.path.abspath(__file__))
sys.path[:0] = [os.path.join(HERE, "..", "scripts"), os.path.join(HERE, "..", "..", "tools")]
sys.setrecursionlimit(5000)

import reference  # noqa: E402
from drawing import answer, pictures, svg, text  # noqa: E402
from drawing.place import picture  # noqa: E402
from drawing.wording import Plain, Wording  # noqa: E402
from ndt.script import assemble  # noqa: E402
from rows import ROWS, numbered  # noqa: E402
from stored import settle  # noqa: E402

STORED = os.path.join(HERE, "stored")
ENDINGS = {"text": "txt", "latex": "tex", "svg": "svg"}
# A larger tree is tested, and not stored.
MOST_RECORDS = 20


class Script:
    """A script with its table, its names' spellings and its answer."""

    def __init__(self, row):
        self.label = row.label
        self.data, numbers = assemble(row.script)
        self.names = {number: spelling for spelling, number in numbers.items()}
        self.lines = reference.answer(self.data)

    def is_accepted(self):
        return self.lines[0].startswith("accepted ")

    def is_stored(self):
        return self.is_accepted() and int(self.lines[0].split()[1]) <= MOST_RECORDS

    def drawn(self, form):
        return pictures.draw(self.data, self.lines, self.names, form)


# What is stored

def files(script):
    """A picture in each form; the text also without spellings."""
    name = re.sub(r"\W+", "_", script.label)
    found = {form: script.drawn(form) for form in ENDINGS}
    found["text"] += "\n" + pictures.draw(script.data, script.lines, {}, "text")
    return {os.path.join(STORED, "%s.%s" % (name, ENDINGS[form])): drawn.encode() for form, drawn in found.items()}


# What holds of every picture

def pieces(part, measure):
    """The row, the left and the right end of a conclusion, and of its line with the label."""
    yield part.row, *part.ends
    if part.line:
        yield part.row + 1, part.line[0], part.line[1] + measure.before_label + measure.label(part.figure.label)


def faults(script):
    """No two pieces of a row touch, none is outside, and the file can be read."""
    figure = Wording(script.data, script.names, Plain()).figure(answer.read(script.lines))
    for form, measure in (("text", text.MEASURE), ("SVG", svg.MEASURE)):
        whole = picture(figure, measure)
        found = sorted(piece for part in whole.parts for piece in pieces(part, measure))
        for (row, _, right), (other, left, _) in zip(found, found[1:]):
            if row == other and right >= left:
                yield "%s: %s overlaps in row %d" % (script.label, form, row)
        if any(left < 0 or right > whole.width or row >= whole.rows for row, left, right in found):
            yield "%s: %s leaves its picture" % (script.label, form)
    xml.dom.minidom.parseString(script.drawn("svg"))
    drawn = script.drawn("latex")
    if drawn.count("InfC{") + drawn.count("AxiomC{$") != int(script.lines[0].split()[1]):
        yield "%s: LaTeX has not one inference or axiom for each record" % script.label


def main():
    if sys.argv[1:] not in ([], ["--check"]):
        sys.exit(__doc__)
    accepted = [script for script in map(Script, ROWS) if script.is_accepted()]
    found = [fault for script in accepted for fault in faults(script)]
    if found:
        sys.exit("\n".join(found))
    kept = [script for script in map(Script, numbered.ROWS) if script.is_stored()]
    settle({path: data for script in kept for path, data in files(script).items()}, sys.argv[1:] == ["--check"])
    print("%d pictures, %d of them stored" % (len(accepted), len(kept)))


if __name__ == "__main__":
    main()
