"""Document 01's case 13."""
from .row import row

OLD = "fun h. sorry : A -> A"

ROWS = [
    row("case 13, with h", OLD, 0, "h", "accepted 1 0", "0 1 0 - 0 | A", "counts serials 0 made 0",
        why="h is the hole's only entry, and its type the goal's"),
    row("case 13, with unit", OLD, 0, "unit", "refused 11 1 edited", why="the goal is an atom; the root has the Sorry's number"),
    row("case 13, with sorry", OLD, 0, "sorry", "accepted 1 1", "15 1 - - 0 | A", "goal 1 1 | A", "counts serials 0 made 0",
        why="the same goal again, h among its entries"),
]
