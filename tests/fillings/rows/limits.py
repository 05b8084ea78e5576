"""The edited table's own tests: 512 terms, 1,024 propositions and depth 64, and one more of each."""
from shapes import ands, pairs
from .row import row

# 257 terms and 511 propositions; goal 0 is term 1.
HALF = "(sorry, %s) : %s & %s" % (pairs(128), ands(128), ands(128))


def ascribed(inner, count, annotation="T"):
    return "(" * count + inner + " : [%s])" % annotation * count


def under(count):
    """A Sorry under so many ascriptions: it is term `count`, and there are as many propositions and the expected one."""
    return "%s : T" % ascribed("sorry", count)


def beside(count):
    """513 propositions with two ascriptions of True beside a large one. In an old table with one term every term keeps its number."""
    return "fst (%s, %s)" % (ascribed("sorry", 1, ands(256)), ascribed("unit", count))


ROWS = [
    row("512 terms", HALF, 0, ascribed(pairs(128), 1, ands(128)), "accepted 255 0", "counts serials 0 made 255",
        why="257 + 256 - 1; the ascription has no record"),
    row("513 terms", HALF, 0, ascribed(ascribed(pairs(128), 1, ands(128)), 1), "refused 3 0 edited", why="257 + 257 - 1; its run would be refused 15"),
    row("1,024 propositions", "sorry : " + ands(256), 0, beside(2), "accepted 4 1", "3 0 - - 1", "2 1 - - 2", "15 3 - - 0", "1 6 - - 0", "goal 3 0", "counts serials 0 made 514",
        why="511 + 513; 513 resolved and one And"),
    row("1,025 propositions", "sorry : " + ands(256), 0, beside(3), "refused 3 0 edited", why="511 + 514"),
    row("depth 64", under(62), 0, ascribed("unit", 1), "accepted 1 0", "1 63 - - 0 | T", "counts serials 0 made 63", why="the Sorry is 63 deep"),
    row("depth 64 by the root alone", under(63), 0, "unit", "accepted 1 0", "1 63 - - 0 | T", "counts serials 0 made 63",
        why="the root stands where the Sorry stood"),
    row("depth 65", under(63), 0, ascribed("unit", 1), "refused 6 129 edited", why="65 propositions, then term 64"),
    row("depth 65, the lowest place", under(63), 0, "(unit, unit)", "refused 6 128 edited",
        why="64 propositions, then terms 64 and 65; the run would be refused 11"),
    row("depth 65, before an unknown name", under(63), 0, "fst q", "refused 6 128 edited", why="the run would be refused 20"),
    row("too many terms and too deep", "(%s, %s) : T & %s" % (ascribed("sorry", 62), pairs(128), ands(128)), 0, pairs(128), "refused 3 0 edited",
        why="test 3 goes first"),
]
