"""A tree as one SVG picture. No font is asked for that might be missing: widths are those of a wide one, and texts are centred."""
from html import escape

from .place import STEP, Measure, picture

SIZE, LABEL_SIZE = 16, 12
FONT = "'STIX Two Text', 'Times New Roman', 'DejaVu Serif', serif"
# From one conclusion to the next, and from a conclusion up to its line.
PITCH, RISE = 34, 19
MARGIN = 16

# Widths in thousandths of the font's size, by sort of letter.
WIDTHS = {1000: "mwMW", 850: "⇒⊤⊥∧∨GOQDNHKR@", 660: "abdeghknopqsuvxyz0123456789∀∃α#", 430: "₀₁₂₃₄₅₆₇₈₉⁰¹²³⁴⁵⁶⁷⁸⁹()[]fcrst", 340: "ijlI.,:;'′ "}
OTHER = 750
WIDTH = {letter: width for width, letters in WIDTHS.items() for letter in letters}

HEAD = """<svg xmlns="http://www.w3.org/2000/svg" width="%(width)d" height="%(height)d" viewBox="0 0 %(width)d %(height)d">
<style>
text { font: %(size)dpx %(font)s; text-anchor: middle; }
text.rule { font-size: %(label)dpx; text-anchor: start; fill: #444; }
text.goal { fill: #a33; }
line { stroke: #000; }
line.goal { stroke: #a33; stroke-dasharray: 2 3; }
rect.goal { fill: #fff3d6; }
</style>
<rect width="100%%" height="100%%" fill="#fff"/>
"""


def width(text, size):
    return -(-sum(WIDTH.get(letter, OTHER) for letter in text) * size // 1000)


MEASURE = Measure(text=lambda text: width(text, SIZE), label=lambda text: width(text, LABEL_SIZE), gap=26, before_label=5, beside_line=10)


def draw(figure):
    whole = picture(figure, MEASURE)
    steps = (whole.rows - 1) // STEP
    height = 2 * MARGIN + SIZE + PITCH * steps + (RISE if whole.rows % STEP == 0 else 0)
    bottom = height - MARGIN - SIZE // 4
    head = HEAD % {"width": whole.width + 2 * MARGIN, "height": height, "size": SIZE, "label": LABEL_SIZE, "font": FONT}
    return head + "".join(shapes(part, bottom) for part in whole.parts) + "</svg>\n"


def shapes(part, bottom):
    """The conclusion, its line and its rule."""
    base = bottom - PITCH * part.row // STEP
    left, right = (end + MARGIN for end in part.ends)
    sort = ' class="goal"' if part.figure.goal else ""
    found = '<rect x="%d" y="%d" width="%d" height="%d" rx="3"%s/>\n' % (left - 4, base - 14, right - left + 8, 19, sort) if part.figure.goal else ""
    found += '<text x="%g" y="%d"%s>%s<title>%s</title></text>\n' % ((left + right) / 2, base, sort, escape(part.figure.text), escape(part.figure.about))
    if part.line:
        start, end = (end + MARGIN for end in part.line)
        found += '<line x1="%d" y1="%d" x2="%d" y2="%d"%s/>\n' % (start, base - RISE, end, base - RISE, sort)
        kind = "rule goal" if part.figure.goal else "rule"
        found += '<text x="%d" y="%d" class="%s">%s</text>\n' % (end + MEASURE.before_label, base - RISE + 4, kind, escape(part.figure.label))
    return found
