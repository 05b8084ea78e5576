"""Made propositions: those before the hole count, those after it do not."""
from shapes import ands
from .row import row

# Three functions make 683 + 682 + 681 = 2,046. Terms 0 to 2 are the functions.
OPENED = "fun a. fun b. fun c. %%s : all x:D. all y:D. all z:D. %s" % ands(341)
HOLE = OPENED % "sorry"
# Two more are made behind goal 0, which is term 4; goal 1 is term 7.
AFTER = OPENED % "(sorry, abort (abort sorry))"


ROWS = [
    row("nothing more is made", HOLE, 0, "sorry", "accepted 1 1", "15 3 - - 0", "goal 3 3", "counts serials 0 made 2046",
        why="the count is what was reached at the hole"),
    row("2,048 made", HOLE, 0, "abort (abort sorry)", "accepted 3 1", "10 3 - - 1", "10 4 - - 1 | F", "15 5 - - 0 | F", "goal 5 3 | F", "counts serials 0 made 2048",
        why="2,046 and two"),
    row("2,049 made", HOLE, 0, "abort (abort (abort sorry))", "refused 30 5 edited", why="the third Abort"),
    row("an annotation passes the limit", HOLE, 0, "(sorry : [T & T])", "refused 30 3 edited", why="three nodes, before it is compared"),
    row("an annotation within the limit differs", HOLE, 0, "(sorry : [T])", "refused 15 3 edited", why="one node"),
    row("an unknown name goes before the limit", HOLE, 0, "(sorry : [P(q) & T])", "refused 10 3 edited", why="document 01 says so"),
    row("a synthesized And passes the limit", HOLE, 0, "fst (unit, unit)", "refused 30 4 edited", why="two Trues, then the pair"),
    row("a later term made two, one more fits here", AFTER, 0, "abort sorry", "accepted 2 1", "10 4 - - 1", "15 8 - - 0 | F", "goal 8 3 | F", "counts serials 0 made 2047",
        why="a check of the edited table is refused 30 at 6, but the filling is not defined by it"),
    row("a later term made two, two more fit here", AFTER, 0, "abort (abort sorry)", "accepted 3 1", "counts serials 0 made 2048",
        why="a check of the edited table is refused 30 at 5"),
    row("a later term made two, three more do not fit", AFTER, 0, "abort (abort (abort sorry))", "refused 30 9 edited",
        why="the filling's own limit is 2,048 too"),
    row("full at the hole", AFTER, 1, "sorry", "accepted 1 1", "15 7 - - 0 | F", "counts serials 0 made 2048", why="nothing is made"),
    row("full at the hole, one more", AFTER, 1, "abort sorry", "refused 30 7 edited", why="2,048 were made before it"),
    row("full at the hole, an unknown name", AFTER, 1, "(sorry : [P(q)])", "refused 10 7 edited", why="it goes before the limit"),
    row("full at the hole, a datatype", AFTER, 1, "(sorry : @D)", "refused 15 7 edited", why="a datatype annotation makes nothing"),
]
