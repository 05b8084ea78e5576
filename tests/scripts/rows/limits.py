"""Made propositions, up to 2,048 and past them. Three ForAlls over n leaves, opened by three functions, make 6n."""
from .row import row
from shapes import ands


def opened(inner, leaves):
    """Terms 0 to 2 are the functions."""
    return "fun a. fun b. fun c. %s : all x:D. all y:D. all z:D. %s" % (inner, ands(leaves))


def applied(last):
    """g, over 681 nodes, is applied to z three times and then otherwise: 1 + 1 + 3 * 681 = 2,045 are made before that."""
    return "fun g. fun z. fst (unit, (g z, (g z, (g z, %s)))) : (all x:D. %s) -> all z:D. T" % (last, ands(341))


ROWS = [
    row("2,052 made", opened("sorry", 342), "refused 30 2"),
    row("2,046 made", opened("sorry", 341), "accepted 4 1", "counts serials 3 made 2046"),
    row("2,048 made", opened("abort (abort sorry)", 341), "accepted 6 1", "counts serials 3 made 2048"),
    row("2,049 made", opened("abort (abort (abort sorry))", 341), "refused 30 5"),
    row("an annotation passes the limit", opened("(sorry : [T & T])", 341), "refused 30 3"),
    row("an annotation within the limit differs", opened("(sorry : [T])", 341), "refused 15 3"),
    row("an unknown name goes before the limit", opened("(sorry : [P(q) & T])", 341), "refused 10 3"),
    row("a synthesized And passes the limit", opened("fst (unit, unit)", 341), "refused 30 4"),
    row("a synthesized True passes the limit", opened("fst ((unit, unit), unit)", 341), "refused 30 5"),
    row("a synthesized ForAll fills the limit", opened("abort (fst (fun x:@D. (sorry : [T & T])))", 340), "refused 22 4"),
    row("a synthesized ForAll passes the limit", opened("abort (abort (fst (fun x:@D. (sorry : [T & T]))))", 340), "refused 30 6"),
    row("a synthesized Impl fills the limit", opened("abort (fst (fun x:[T & T]. (sorry : [T & T])))", 340), "refused 22 4"),
    row("a synthesized Impl passes the limit", opened("abort (abort (fst (fun x:[T & T]. (sorry : [T & T]))))", 340), "refused 30 6"),
    row("a fourth copy passes the limit", applied("g z"), "refused 30 17"),
    row("a wrong argument goes before the limit", applied("g g"), "refused 14 19"),
    row("an unknown argument goes before the limit", applied("g q"), "refused 20 19"),
    row("an argument that is no Ident goes before the limit", applied("g unit"), "refused 24 19"),
]
