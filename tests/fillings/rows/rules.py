"""The rules at a hole: acceptances, and each refusal of a run with its place in the edited table. The hole is term 2 with h : A | A (serial 0) and z : D (serial 1) and one
made proposition, and its goal is B; term i of the filling becomes term 2 + i."""
from .row import row

OLD = "fun h. fun z. sorry : (A | A) -> all z:D. B"


def at(label, filling, *answer, why):
    return row(label, OLD, 0, filling, *answer, why=why)


ROWS = [
    row("alpha-equal", "fun h. sorry : (all x:D. P(x)) -> all y:D. P(y)", 0, "h", "accepted 2 0", "16 1 - - 1 | all y:D. P(y)", "0 1 0 - 0 | all x:D. P(x)",
        why="the AlphaEq node concludes the goal"),
    row("case 9's pair", "fun h. let (x,k) = h in sorry : (ex x:D. P(x)) -> ex y:D. P(y)", 0, "(x,k)",
        "accepted 3 0", "13 3 - - 2 | ex y:D. P(y)", "0 4 1 - 0 | s1 : D", "0 5 2 - 0 | P(s1)", "counts serials 0 made 2",
        why="1 made by the let and 1 by the pair"),
    row("case 12's application", "fun g. fun z. sorry : (all y:D. all x:D. P(y,x)) -> all z:D. all x:D. P(z,x)", 0, "(fun x:@D. g x) z",
        "accepted 6 0", "12 2 - - 2 | all x:D. P(s1,x)", "11 3 2 - 1", "12 4 - - 2 | all x:D. P(s2,x)", "0 5 0 - 0", "0 6 2 - 0", "0 7 1 - 0",
        "counts serials 1 made 9", why="2 made at the hole, then 2 for g x, 3 for the synthesized ForAll and 2 for its body"),
    row("a filling's arms", "fun h. sorry : A | A -> A", 0, "case h of x. x ; y. y end",
        "accepted 4 0", "9 1 1 2 3 | A", "0 2 0 - 0 | A | A", "0 3 1 - 0 | A", "0 4 2 - 0 | A", "counts serials 2 made 0", why="serials go on after h"),
    row("an ascription leaves no record", OLD, 0, "((sorry : [B]) : [B])", "accepted 1 1", "15 4 - - 0 | B", "goal 4 2 | B", "counts serials 0 made 3",
        why="1 + 2 annotations; the root is not in the tree"),
    at("10 at the root", "(sorry : [P(q)])", "refused 10 2 edited", why="no entry q"),
    at("10 below", "abort (sorry : [P(q)])", "refused 10 3 edited", why="the ascription is term 1 of the filling"),
    at("11, a pair", "(unit, unit)", "refused 11 2 edited", why="B is no And and no Exists"),
    at("11, a function", "fun y. y", "refused 11 2 edited", why="B is no Impl and no ForAll"),
    at("11, inl", "inl unit", "refused 11 2 edited", why="B is no Or"),
    at("11 below", "abort unit", "refused 11 3 edited", why="Unit against F"),
    at("12, a case", "case z of a. a ; b. b end", "refused 12 3 edited", why="the head's type is a datatype"),
    at("12, a let", "let (a,b) = h in b", "refused 12 3 edited", why="the head is an Or"),
    at("13", "fst ((unit, unit) : [ex y:D. T])", "refused 13 5 edited", why="fst, ascription, pair, then the part that is no Ident"),
    at("14 at the root", "h", "refused 14 2 edited", why="A | A is not B"),
    at("14 below", "fst ((fun y:[A]. y) : [B -> B])", "refused 14 4 edited", why="the annotation differs from the expected B"),
    at("15", "(sorry : [A])", "refused 15 2 edited", why="A is not B"),
    at("15, a datatype", "(sorry : @B)", "refused 15 2 edited", why="a datatype is no proposition, whatever its name"),
    at("20 at the root", "q", "refused 20 2 edited", why="an Ident is synthesized"),
    at("20 below", "fst q", "refused 20 3 edited", why="no entry q"),
    at("21", "fst (fun y. y)", "refused 21 3 edited", why="a function is synthesized without annotation"),
    at("22, a projection", "fst h", "refused 22 2 edited", why="the place is the projection's"),
    at("22, an application", "h h", "refused 22 3 edited", why="the place is the function's"),
    at("23", "fst (h, z)", "refused 23 3 edited", why="z is of a datatype"),
    at("24, a function", "fst (fun y:@D. y)", "refused 24 4 edited", why="the body is of a datatype"),
    at("24, an argument", "(fun y:@D. h) unit", "refused 24 5 edited", why="a ForAll wants an Ident"),
    at("25, a Sorry", "fst sorry", "refused 25 3 edited", why="a Sorry is synthesized"),
    at("25, a pair", "fst (z, h)", "refused 25 3 edited", why="first a datatype"),
    at("26", "fst (case h of a. unit ; b. b end)", "refused 26 3 edited", why="T and A differ"),
    at("27", "fst (let (a,b) = (sorry : [ex y:D. P(y)]) in b)", "refused 27 6 edited", why="P(s2) holds the let's first serial"),
]
