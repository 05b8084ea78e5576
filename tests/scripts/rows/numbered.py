"""Document 01's numbered cases. (A filled case 13 is checked here as a table of its own.)"""
from .row import row
from shapes import ands, pairs

ROWS = [
    row("case 1", "fun h. h : A -> A",
        "accepted 2 0", "5 0 0 - 1 | A -> A", "0 1 0 - 0 | A", "counts serials 1 made 0"),
    row("case 3, accepted", "fun h. fun h. h : A -> (B -> B)",
        "accepted 3 0", "5 0 0 - 1", "5 1 1 - 1", "0 2 1 - 0 | B", "counts serials 2 made 0"),
    row("case 3, refused", "fun h. fun h. h : A -> (B -> A)", "refused 14 2"),
    row("case 4", "fun x. fun h. (x,h) : all x:D. (P(x) -> ex y:D. P(y))",
        "accepted 5 0", "11 0 0 - 1 | all x:D. (P(x) -> ex y:D. P(y))", "5 1 1 - 1 | P(s0) -> ex y:D. P(y)", "13 2 - - 2 | ex y:D. P(y)",
        "0 3 0 - 0 | s0 : D", "0 4 1 - 0 | P(s0)", "counts serials 2 made 5"),
    row("case 6", "abort unit : A", "refused 11 1"),
    row("case 9", "fun h. let (x,k) = h in (x,k) : (ex x:D. P(x)) -> ex y:D. P(y)",
        "accepted 6 0", "5 0 0 - 1", "14 1 1 2 2 | ex y:D. P(y)", "0 2 0 - 0 | ex x:D. P(x)", "13 3 - - 2 | ex y:D. P(y)", "0 4 1 - 0 | s1 : D",
        "0 5 2 - 0 | P(s1)", "counts serials 3 made 2"),
    row("case 10", "fun h. h : (all x:D. P(x)) -> all y:D. P(y)",
        "accepted 3 0", "5 0 0 - 1", "16 1 - - 1 | all y:D. P(y)", "0 1 0 - 0 | all x:D. P(x)", "counts serials 1 made 0"),
    row("case 12", "fun g. fun z. ((fun x:@D. g x) z) : (all y:D. all x:D. P(y,x)) -> all z:D. all x:D. P(z,x)",
        "accepted 8 0", "5 0 0 - 1", "11 1 1 - 1", "12 2 - - 2 | all x:D. P(s1,x)", "11 3 2 - 1", "12 4 - - 2 | all x:D. P(s2,x)", "0 5 0 - 0",
        "0 6 2 - 0", "0 7 1 - 0"),
    row("case 13, the table", "fun h. sorry : A -> A",
        "accepted 2 1", "5 0 0 - 1", "15 1 - - 0 | A", "goal 1 1 | A", "counts serials 1 made 0"),
    row("case 13, filled with h", "fun h. h : A -> A",
        "accepted 2 0", "5 0 0 - 1", "0 1 0 - 0"),
    row("case 13, filled with unit", "fun h. unit : A -> A", "refused 11 1"),
    row("case 14, 63 ascriptions", "(" * 63 + "unit" + " : [T])" * 63 + " : T", "accepted 1 0", "1 63 - - 0 | T", "counts serials 0 made 63"),
    row("case 14, 64 ascriptions", "(" * 64 + "unit" + " : [T])" * 64 + " : T", "refused 6 129"),
    row("case 14, 512 terms", "(%s : [%s]) : %s" % (pairs(256), ands(256), ands(256)), "accepted 511 0", "counts serials 0 made 511"),
    row("case 14, 513 terms", "((%s : [%s]) : [%s]) : %s" % (pairs(256), ands(2), ands(2), ands(2)), "refused 3 0"),
]
