"""A tree as text, for a terminal."""
from .place import Measure, picture

MEASURE = Measure(text=len, label=len, gap=3, before_label=1, beside_line=1)
LINE, DOTTED = "─", "·"


def draw(figure):
    whole = picture(figure, MEASURE)
    rows = [[" "] * whole.width for _ in range(whole.rows)]
    for part in whole.parts:
        write(rows[part.row], part.ends[0], part.figure.text)
        if part.line:
            left, right = part.line
            line = (DOTTED if part.figure.goal else LINE) * (right - left)
            write(rows[part.row + 1], left, line + " " * MEASURE.before_label + part.figure.label)
    return "".join("".join(row).rstrip() + "\n" for row in reversed(rows))


def write(row, start, text):
    row[start:start + len(text)] = text
