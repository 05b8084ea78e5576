"""Where each part of a picture stands. Widths are worked out from the leaves down to the root: trees beside each other are pushed together, row by
row, until their nearest parts are a gap apart, and a conclusion stands in the middle below its premises."""
from typing import NamedTuple, Optional

from .wording import Figure

# A conclusion stands on an even row, the line above it and its label on the next; rows are counted from the bottom.
STEP = 2


class Measure(NamedTuple):
    """How wide a text and a label are, what is left between trees, between a line and its label, and at least between these two and whatever stands
    beside the conclusion below them."""
    text: callable
    label: callable
    gap: int
    before_label: int
    beside_line: int


class Placed(NamedTuple):
    """A figure with its conclusion's left and right end, its line's, its outline (left and right end of each row) and its premises, each
    beside how far it is moved to the right."""
    figure: Figure
    ends: tuple
    line: Optional[tuple]
    outline: list
    above: list


class Part(NamedTuple):
    """A figure where it stands in the whole picture."""
    figure: Figure
    row: int
    ends: tuple
    line: Optional[tuple]


def place(figure, measure):
    above, outline = beside([place(premise, measure) for premise in figure.above], measure.gap)
    width = measure.text(figure.text)
    left, right = span(above) if above else (0, width)
    start = (left + right - width) // 2
    ends = (start, start + width)
    if figure.label is None:
        return Placed(figure, ends, None, [ends], [])
    line = (min(left, start), max(right, start + width))
    label_ends = line[1] + measure.before_label + measure.label(figure.label)
    # A line or a label above something else would seem to belong to it.
    spare = measure.gap - measure.beside_line
    conclusion = (min(start, line[0] + spare), max(start + width, label_ends - spare))
    return Placed(figure, ends, line, [conclusion, (line[0], label_ends), *outline], above)


def span(above):
    """From the first premise's conclusion to the last one's."""
    (first, first_moved), (last, last_moved) = above[0], above[-1]
    return first.ends[0] + first_moved, last.ends[1] + last_moved


def beside(trees, gap):
    """The trees, each beside how far it is moved, and the outline of them all."""
    found, outline = [], []
    for tree in trees:
        moved = max((right + gap - left for (_, right), (left, _) in zip(outline, tree.outline)), default=0)
        found.append((tree, moved))
        own = [(left + moved, right + moved) for left, right in tree.outline]
        both = [(min(a[0], b[0]), max(a[1], b[1])) for a, b in zip(outline, own)]
        outline = both + outline[len(both):] + own[len(both):]
    return found, outline


class Picture(NamedTuple):
    parts: list
    width: int
    rows: int


def picture(figure, measure):
    """All parts of a tree, from 0 to the right."""
    tree = place(figure, measure)
    least = min(left for left, _ in tree.outline)
    parts = []
    spread(tree, -least, 0, parts)
    return Picture(parts, max(right for _, right in tree.outline) - least, len(tree.outline))


def spread(tree, moved, row, parts):
    line = tree.line and tuple(end + moved for end in tree.line)
    parts.append(Part(tree.figure, row, tuple(end + moved for end in tree.ends), line))
    for premise, further in tree.above:
        spread(premise, moved + further, row + STEP, parts)
