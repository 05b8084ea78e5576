"""Bound parameters: the nearest quantifier, no capture, binder names."""
from .row import row

ROWS = [
    row("bound parameter 1", "fun h. h : (all x:D. all x:D. P(x)) -> all a:D. all b:D. P(b)",
        "accepted 3 0", "5 0 0 - 1", "16 1 - - 1", "0 1 0 - 0"),
    row("bound parameter 2", "fun h. h : (all x:D. all x:D. P(x)) -> all a:D. all b:D. P(a)", "refused 14 1"),
    row("bound parameter 3", "fun h. h : (all x:D. all y:D. P(x)) -> all y:D. all x:D. P(y)", "accepted 3 0"),
    row("bound parameter 4", "fun h. h : (all x:D. all y:D. P(x)) -> all y:D. all x:D. P(x)", "refused 14 1"),
    row("bound parameter 5", "fun h. h : (all x:D. P(x)) -> all x:C. P(x)", "refused 14 1"),
    row("bound parameter 6", "fun h. h : (all x:D. P(x)) -> ex x:D. P(x)", "refused 14 1"),
    row("bound parameter 7", "unit : P(z)", "refused 7 0"),
    row("bound parameter 8", "unit : (all x:D. P(x)) & P(x)", "refused 7 3"),
    row("bound parameter 9", "fun h. h : P & Q -> P & R", "refused 14 1"),
    row("bound parameter 10", "fun x. fun h. h : all x:D. P(x) -> P(x,x)", "refused 14 2"),
    row("bound parameter 11", "fun g. fst (unit, (fun x:@D. g x)) : (all y:D. ex x:D. P(y,x)) -> T", "accepted 8 0"),
    row("bound parameter 12", "fun g. fst (unit, (fun z:@D. g z)) : (all y:D. ex x:D. P(y,x)) -> T",
        "accepted 8 0", "5 0 0 - 1", "3 1 - - 1", "2 2 - - 2 | T & all z:D. ex x:D. P(z,x)", "1 3 - - 0", "11 4 1 - 1 | all z:D. ex x:D. P(z,x)",
        "12 5 - - 2 | ex x:D. P(s1,x)", "0 6 0 - 0", "0 7 1 - 0", "counts serials 2 made 7"),
]
