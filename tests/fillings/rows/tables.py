"""Refusals of the old table, of the filling and of the goal's number, and which of them goes first."""
from shapes import pairs
from .row import row, written

OLD = "check fun h. sorry : A -> A"
DEEP = "(" * 64 + "sorry" + " : [T])" * 64
HIGH = "all x:D. " * 32 + "P(x)"


def old(label, statements, answer, why):
    return written("the old table: " + label, statements, 0, ("filling unit",), answer, why=why)


def filling(label, statements, answer, why, goal=0):
    return written("the filling: " + label, (OLD,), goal, statements, answer, why=why)


def no_goal(label, script, number, why):
    return row("no goal: " + label, script, number, "unit", "refused 31 0 old", why=why)


ROWS = [
    old("no header", ("bytes 78 68 84 0",), "refused 2 0 old", "four bytes"),
    old("another version", (OLD, "set header version 2"), "refused 2 0 old", "only version 1 is known"),
    old("a byte short", (OLD, "drop 1"), "refused 3 0 old", "79 bytes"),
    old("an unknown kind", (OLD, "set term 0 kind 14"), "refused 4 3 old", "behind three propositions"),
    old("the root names itself", (OLD, "set term 0 child1 0"), "refused 5 3 old", "the link's holder"),
    old("a filling", ("filling fun h. sorry",), "refused 5 0 old", "its expected field is 65,535"),
    old("too deep", ("check %s : T" % DEEP,), "refused 6 129 old", "65 propositions, then term 64"),
    old("too high", ("check sorry : " + HIGH,), "refused 6 32 old", "33 high"),
    old("a free name", ("check sorry : A & P(z)",), "refused 7 2 old", "the expected proposition's number"),
    old("its run, before the goal", ("check fun h. (h, sorry) : A -> B & T",), "refused 14 2 old", "h is no B"),
    old("its run, after the goal", ("check (sorry, unit) : T & F",), "refused 11 2 old", "the goal alone would be filled"),
    filling("empty", (), "refused 2 0 filling", "no bytes at all"),
    filling("another mark", ("filling h", "set byte 0 77"), "refused 2 0 filling", "not NDT"),
    filling("zero bytes that are none", ("filling h", "set byte 15 1"), "refused 2 0 filling", "the header's last byte"),
    filling("a byte over", ("filling h", "bytes 0"), "refused 3 0 filling", "33 bytes"),
    filling("no terms", ("header props 0 terms 0 expected 65535",), "refused 3 0 filling", "a count of 0"),
    filling("513 terms", ("filling %s" % pairs(257),), "refused 3 0 filling", "its own count, before the edited table's"),
    filling("a tag on an Ident", ("filling h", "set term 0 tag 1"), "refused 4 0 filling", "only functions and ascriptions bear one"),
    filling("an unused field", ("filling (h : [A])", "set term 1 child1 5"), "refused 4 2 filling", "behind one proposition, an Ident with a child"),
    filling("a table to check", (OLD,), "refused 5 0 filling", "its expected field is a proposition"),
    filling("a loose proposition", ("header props 1 terms 1 expected 65535", "prop True", "term Sorry"), "refused 5 0 filling", "nothing names it"),
    filling("a term named twice", ("filling (unit, unit)", "set term 0 child2 1"), "refused 5 1 filling", "1 is named twice and 2 not at all"),
    filling("an annotation out of range", ("filling (unit : [T])", "set term 0 type 1"), "refused 5 0 filling",
            "proposition 0 is not named; that the old table has a 1 does not count"),
    filling("too deep", ("filling " + DEEP,), "refused 6 128 filling", "64 propositions, then term 64"),
    filling("too high", ("filling (sorry : [%s])" % HIGH,), "refused 6 32 filling", "33 high"),
    row("no test 7 for a filling", "fun z. sorry : all z:D. P(z)", 0, "(sorry : [P(z)])", "accepted 1 1", "15 2 - - 0 | P(s0)", "goal 2 1 | P(s0)", "counts serials 0 made 2",
        why="its free names are looked up at the hole"),
    no_goal("one past the end", "fun h. sorry : A -> A", 1, "goals count from 0"),
    no_goal("one past the end of two", "(sorry, sorry) : T & T", 2, "goals count from 0"),
    no_goal("none at all", "fun h. h : A -> A", 0, "the script is whole"),
    no_goal("the largest number of 16 bits", "sorry : T", 65535, "the room's mark for none is no goal"),
    no_goal("a number past 16 bits", "sorry : T", 65536, "its low 16 bits would be goal 0"),
    written("the old table goes before the filling", ("check unit : A",), 0, ("bytes 0",), "refused 11 0 old", why="both are bad"),
    written("the old run goes before the goal's number", ("check unit : A",), 7, ("filling unit",), "refused 11 0 old", why="there is no goal 7 either"),
    filling("before the goal's number", ("filling h", "drop 1"), "refused 3 0 filling", "there is no goal 7 either", goal=7),
    row("the goal's number goes before the edited table", "%s : T" % DEEP.replace("(", "", 1).replace(" : [T])", "", 1), 1, "(unit : [T])", "refused 31 0 old",
        why="the edited table would be too deep"),
]
