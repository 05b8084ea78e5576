"""A tree as a LaTeX document, for the package bussproofs."""
INFERENCES = {1: "Unary", 2: "Binary", 3: "Trinary"}

DOCUMENT = r"""\documentclass[border=5mm]{standalone}
\usepackage{bussproofs}
\begin{document}
%s\DisplayProof
\end{document}
"""


def draw(figure):
    lines = []
    write(figure, lines)
    return DOCUMENT % "".join(line + "\n" for line in lines)


def write(figure, lines):
    for premise in figure.above:
        write(premise, lines)
    if figure.label is None:
        lines.append(r"\AxiomC{$%s$}" % figure.text)
        return
    if not figure.above:
        lines.append(r"\AxiomC{}")
    if figure.goal:
        lines.append(r"\dottedLine")
    lines.append(r"\RightLabel{\scriptsize %s}" % figure.label)
    lines.append(r"\%sInfC{$%s$}" % (INFERENCES[max(1, len(figure.above))], figure.text))
