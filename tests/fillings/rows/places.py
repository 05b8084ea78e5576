"""Where the hole stands: what is checked or synthesized around it, what was known there, and how many serials and propositions were made by then."""
from .row import row, written

CASE = "case (sorry : [A | B]) of x. sorry ; y. sorry end : A"
LEFT = "fun h. case h of x. sorry ; y. fun a. a end : A | B -> (C -> C)"
RIGHT = "fun h. case h of x. fun a. a ; y. sorry end : A | B -> (C -> C)"
LET = "fun h. fst (let (x,k) = h in (sorry : [A & B])) : (ex x:D. P(x)) -> A"
BACKWARDS = ("header props 3 terms 3 expected 2", "prop True", "prop False", "prop And a 1 b 0", "term Pair child1 2 child2 1", "term Sorry", "term Sorry")

ROWS = [
    row("the whole script is the hole", "sorry : A -> A", 0, "fun h. h", "accepted 2 0", "5 0 0 - 1 | A -> A", "0 1 0 - 0 | A", "counts serials 1 made 0",
        why="nothing was known; term 1 of the filling comes behind the one old term"),
    row("checked around: a pair's first part", "(sorry, unit) : T & T", 0, "unit", "accepted 1 0", "1 1 - - 0 | T", "counts serials 0 made 0",
        why="the goal is T; a checked Unit makes nothing"),
    row("checked around: a pair's second part", "fun h. (h, sorry) : A -> A & B", 0, "h", "refused 14 3 edited",
        why="h has type A, the goal is B, the Sorry is term 3"),
    row("checked around: under inr", "inr sorry : A | T", 0, "unit", "accepted 1 0", "1 1 - - 0 | T", why="the goal is the right part"),
    row("checked around: under abort", "fun h. abort sorry : F -> A", 0, "h", "accepted 1 0", "0 2 0 - 0 | F", "counts serials 0 made 1",
        why="Abort made its False before its body"),
    row("checked around: a witness", "fun x. (x, sorry) : all x:D. ex y:D. P(y)", 0, "(sorry : [P(x)])",
        "accepted 1 1", "15 4 - - 0 | P(s0)", "goal 4 1 | P(s0)", "counts serials 0 made 4",
        why="2 made for the ForAll's body, 1 for the Exists's, 1 for the annotation"),
    row("synthesized around: an ascription", "fst (sorry : [A & B]) : A", 0, "(sorry, sorry)",
        "accepted 3 2", "2 2 - - 2 | A & B", "15 3 - - 0 | A", "15 4 - - 0 | B", "goal 3 0 | A", "goal 4 0 | B", "counts serials 0 made 3",
        why="3 made for the annotation; the goal is what it says"),
    row("synthesized around: an argument", "fun f. f sorry : (A -> B) -> B", 0, "f", "refused 14 3 edited", why="the argument's goal is A, f is a function"),
    row("synthesized around: an argument, aborted", "fun f. f sorry : (A -> B) -> B", 0, "abort sorry",
        "accepted 2 1", "10 3 - - 1 | A", "15 4 - - 0 | F", "goal 4 1 | F", "counts serials 0 made 1", why="the filling's own Abort makes the one proposition"),
    row("synthesized around: a let's body", LET, 0, "(sorry, (let (u,v) = h in sorry))",
        "accepted 5 2", "2 5 - - 2", "15 6 - - 0 | A", "14 7 3 4 2 | B", "0 8 0 - 0 | ex x:D. P(x)", "15 9 - - 0 | B", "goal 6 3 | A", "goal 9 5 | B",
        "counts serials 2 made 5", why="three serials and 1 + 3 made propositions before the hole; the filling's let makes two serials and one proposition"),
    row("synthesized around: a let's body, with its names", LET, 0, "(sorry, (fst (sorry, k)))",
        "refused 25 9 edited", why="5 is the pair, 6 its Sorry, 7 fst, 8 the other pair, 9 a Sorry that is synthesized"),
    row("a case's head", CASE, 0, "inl sorry", "accepted 2 1", "7 2 - - 1 | A | B", "15 5 - - 0 | A", "goal 5 0 | A", "counts serials 0 made 3",
        why="no arm is open yet"),
    row("a case's left arm", CASE, 1, "x", "accepted 1 0", "0 3 0 - 0 | A", "counts serials 0 made 3", why="x is the left arm's hypothesis"),
    row("a case's right arm, with its own name", CASE, 2, "y", "refused 14 4 edited", why="y is there, with type B"),
    row("a case's right arm, with the left arm's name", CASE, 2, "x", "refused 20 4 edited", why="the left arm's hypothesis is gone"),
    row("serials in a left arm", LEFT, 0, "fun c. c", "accepted 2 0", "5 3 2 - 1 | C -> C", "0 6 2 - 0 | C", "counts serials 1 made 0",
        why="0 is h and 1 is x; the old 2 and 3 come after the hole, so the filling begins with 2"),
    row("two serials in a left arm", LEFT, 0, "fun c. ((fun d:[T]. c) unit)", "accepted 5 0", "5 3 2 - 1", "6 6 - - 2 | C", "5 7 3 - 1 | T -> C", "0 8 2 - 0 | C",
        "1 9 - - 0 | T", "counts serials 2 made 2", why="an annotation and an Impl are made"),
    row("serials in a right arm", RIGHT, 0, "fun c. c", "accepted 2 0", "5 5 4 - 1 | C -> C", "0 6 4 - 0 | C", "counts serials 1 made 0",
        why="h, x, a and y have 0 to 3"),
    row("a left arm's name in the right arm", RIGHT, 0, "fun c. x", "refused 20 6 edited", why="the name is looked up at the filling's term 1"),
    row("the first of two goals", "(sorry, sorry) : A & B", 0, "sorry", "accepted 1 1", "15 1 - - 0 | A", "goal 1 0 | A", why="goals count from 0"),
    row("the second of two goals", "(sorry, sorry) : A & B", 1, "sorry", "accepted 1 1", "15 2 - - 0 | B", "goal 2 0 | B", why="the other part"),
    written("goal 0 is the first subterm, not the first record", BACKWARDS, 0, ("filling unit",), "refused 11 2 edited", why="its goal is F, at term 2"),
    written("goal 1 is the second subterm", BACKWARDS, 1, ("filling unit",), "accepted 1 0", "1 1 - - 0 | T", why="its goal is T, at term 1"),
    row("the latest entry of a name", "fun h. fun h. sorry : A -> (B -> B)", 0, "h", "accepted 1 0", "0 2 1 - 0 | B", why="h is the inner one"),
    row("not the oldest entry of a name", "fun h. fun h. sorry : A -> (B -> A)", 0, "h", "refused 14 2 edited", why="h is the inner one"),
    row("a filling with three goals", "sorry : A", 0, "case (sorry : [A | B]) of x. sorry ; y. sorry end",
        "accepted 4 3", "9 0 0 1 3 | A", "15 2 - - 0 | A | B", "15 3 - - 0 | A", "15 4 - - 0 | A", "goal 2 0 | A | B", "goal 3 1 | A", "goal 4 1 | A",
        "counts serials 2 made 3", why="as the check of such a script"),
    row("goal lengths count the hole's entries", "fun a. fun b. sorry : A -> (B -> (C -> C))", 0, "fun c. sorry",
        "accepted 2 1", "5 2 2 - 1", "15 3 - - 0 | C", "goal 3 3 | C", "counts serials 1 made 0", why="two at the hole and one of the filling"),
]
