"""The picture of an answer, in each form."""
from . import answer, latex, svg, text
from .wording import Latex, Plain, Wording

FORMS = {"text": (text.draw, Plain()), "latex": (latex.draw, Latex()), "svg": (svg.draw, Plain())}


def draw(data, lines, names, form):
    """The picture of a table, from the lines that `trace` prints of it."""
    paint, signs = FORMS[form]
    return paint(Wording(data, names, signs).figure(answer.read(lines)))


def spellings(lines):
    """The spelling of each number, from `name` lines."""
    found = {}
    for line in lines:
        words = line.split()
        if len(words) != 3 or words[0] != "name" or not words[2].isdigit():
            raise ValueError("not a `name` line: " + line.strip())
        found[int(words[2])] = words[1]
    return found
