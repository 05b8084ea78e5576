"""Random scripts with few names, so that much is shadowed: terms that mostly synthesize, and proofs that mostly check. They are drawn
along the rules while the types are followed. A context is a list of entries (name, serial, type)."""
from . import trees
from .trees import SORRY, UNIT, apply, ascribed, case, function, ident, let, one, pair
from .types import DATA, NAMES, Unwritable, bind, drawn, holds, nameless, parts, put, visible, written

TRUE, FALSE = ("T",), ("F",)
RENAMED = .4


class Wild:
    def __init__(self, draw):
        self.draw, self.serials = draw, 0

    def fresh(self):
        self.serials += 1
        return self.serials - 1

    def name(self):
        return self.draw.of(NAMES + (trees.H,))

    def prop(self, context, depth=2):
        return drawn(self.draw, depth, 0, [e[1] for e in visible(context) if self.draw.chance(.5)])

    def write(self, p, context):
        return written(self.draw, p, context, RENAMED)

    # Terms that mostly synthesize, with their type

    def synthesized(self, context, depth):
        k = self.draw.below(100)
        if depth <= 0 or k < 14:
            return self.entry(context)
        if k < 45:
            return self.used(*self.synthesized(context, depth - 1), context, depth)
        if k < 68:
            return self.function(context, depth)
        if k < 76:
            (a, p), (b, q) = self.synthesized(context, depth - 1), self.synthesized(context, depth - 2)
            return pair(a, b), ("&", p, q)
        if k < 90:
            return self.ascription(context, depth)
        try:
            p = self.prop(context)
            return ascribed(self.proof(p, context, depth - 2), self.write(p, context)), p
        except Unwritable:
            return UNIT, TRUE

    def entry(self, context):
        entries = visible(context)
        if not entries or self.draw.chance(.02):
            return (ident(trees.G), TRUE) if self.draw.chance(.5) else (UNIT, TRUE)
        hypotheses = [e for e in entries if e[2][0] != "D"]
        entry = self.draw.of(hypotheses if hypotheses and self.draw.chance(.9) else entries)
        return ident(entry[0]), entry[2]

    def function(self, context, depth):
        """Of a datatype, mostly, or of a proposition."""
        of_object = self.draw.chance(.7)
        typ = ("D", self.draw.of(DATA)) if of_object else self.prop(context)
        x, serial = self.name(), self.fresh()
        body, found = self.synthesized(context + [(x, serial, typ)], depth - 1)
        if found[0] == "D":
            return body, found
        if of_object:
            return function(x, typ[1], body), ("A", x, typ[1], bind(found, serial))
        try:
            return function(x, self.write(typ, context), body), (">", typ, found)
        except Unwritable:
            return function(x, None, body), (">", typ, found)

    def ascription(self, context, depth):
        t, found = self.synthesized(context, depth - 1)
        if found[0] == "D":
            return (ascribed(t, found[1]), found) if self.draw.chance(.3) else (t, found)
        if self.draw.chance(.06):
            found = self.prop(context)
        try:
            return ascribed(t, self.write(found, context)), found
        except Unwritable:
            return t, found

    def used(self, t, found, context, depth):
        """An elimination of t."""
        if found[0] == "A":
            objects = [e for e in visible(context) if e[2] == ("D", found[2])]
            if not objects:
                return t, found
            entry = self.draw.of(objects if self.draw.chance(.97) else visible(context))
            return apply(t, ident(entry[0])), put(found[3], entry[1])
        if found[0] == ">":
            return apply(t, self.proof(found[1], context, depth - 2)), found[2]
        if found[0] == "&":
            first = self.draw.chance(.5)
            return one("ProjectFst" if first else "ProjectSnd", t), found[1 if first else 2]
        if found[0] == "E":
            return self.let(t, found, context, lambda inside: self.synthesized(inside, depth - 1))
        if found[0] == "|":
            return self.case(t, found, context, depth)
        return t, found

    def let(self, t, found, context, inner):
        x, k, i, j = self.name(), self.name(), self.fresh(), self.fresh()
        body, p = inner(context + [(x, i, ("D", found[2])), (k, j, put(found[3], i))])
        if p[0] != "D" and holds(p, i) and self.draw.chance(.8):
            return let(x, k, t, UNIT), TRUE
        return let(x, k, t, body), p

    def case(self, t, found, context, depth):
        x, y = self.name(), self.name()
        left, p = self.synthesized(context + [(x, self.fresh(), found[1])], depth - 2)
        inside = context + [(y, self.fresh(), found[2])]
        if p[0] == "D":
            return case(x, y, t, left, left), p
        try:
            right = ascribed(self.proof(p, inside, depth - 2), self.write(p, inside))
        except Unwritable:
            right = self.synthesized(inside, depth - 2)[0]
        return case(x, y, t, left, right), p

    # Proofs: terms that mostly check against a type

    def proof(self, goal, context, depth):
        same = [e for e in visible(context) if nameless(e[2]) == nameless(goal)]
        if same and self.draw.chance(.6):
            return ident(self.draw.of(same)[0])
        if depth <= 0:
            return self.last(goal, context)
        k = self.draw.below(100)
        if k < 45:
            return self.introduced(goal, context, depth)
        if k < 75:
            return self.eliminated(goal, context, depth)
        if k < 80:
            return one("Abort", self.proof(FALSE, context, depth - 1))
        if k < 90:
            try:
                return ascribed(self.proof(goal, context, depth - 1), self.write(goal, context))
            except Unwritable:
                pass
        return self.last(goal, context)

    def last(self, goal, context):
        if goal == TRUE and self.draw.chance(.8):
            return UNIT
        return SORRY if self.draw.chance(.93) else self.entry(context)[0]

    def introduced(self, goal, context, depth):
        if goal[0] == "&":
            return pair(self.proof(goal[1], context, depth - 1), self.proof(goal[2], context, depth - 1))
        if goal[0] == "|":
            left = self.draw.chance(.5)
            return one("OrLeft" if left else "OrRight", self.proof(goal[1 if left else 2], context, depth - 1))
        if goal[0] in ">A":
            return self.abstraction(goal, context, depth)
        if goal[0] == "E":
            objects = [e for e in visible(context) if e[2] == ("D", goal[2])]
            if objects:
                entry = self.draw.of(objects)
                return pair(ident(entry[0]), self.proof(put(goal[3], entry[1]), context, depth - 1))
        return self.last(goal, context)

    def abstraction(self, goal, context, depth):
        x, serial = self.name(), self.fresh()
        typ, inner = (goal[1], goal[2]) if goal[0] == ">" else (("D", goal[2]), put(goal[3], serial))
        annotation = None
        if self.draw.chance(.3):
            try:
                annotation = typ[1] if typ[0] == "D" else self.write(typ, context)
            except Unwritable:
                pass
        return function(x, annotation, self.proof(inner, context + [(x, serial, typ)], depth - 1))

    def eliminated(self, goal, context, depth):
        """By something that synthesizes: an Or, an Exists or a False is taken apart, anything else is compared with the goal."""
        t, found = self.synthesized(context, self.draw.of((0, 0, 1, 2)))
        if found[0] == "|":
            x, y = self.name(), self.name()
            left = self.proof(goal, context + [(x, self.fresh(), found[1])], depth - 1)
            return case(x, y, t, left, self.proof(goal, context + [(y, self.fresh(), found[2])], depth - 1))
        if found[0] == "E":
            return self.let(t, found, context, lambda inside: (self.proof(goal, inside, depth - 1), FALSE))[0]
        if found == FALSE:
            return one("Abort", t)
        if found[0] != "D" and nameless(found) == nameless(goal):
            return t
        return self.introduced(goal, context, depth)


def setting(wild, draw):
    """Hypotheses and objects: their names, types and entries."""
    entries = []
    for _ in range(draw.of((1, 2, 2, 3, 4))):
        typ = ("D", draw.of(DATA)) if draw.chance(.45) else drawn(draw, draw.of((1, 2, 3)))
        entries.append((wild.name(), wild.fresh(), typ))
    return entries


def closed(draw, entries, goal, term):
    """The term and the goal under functions for the entries."""
    for name, serial, typ in reversed(entries):
        term = function(name, None, term)
        goal = ("A", draw.of(NAMES), typ[1], bind(goal, serial)) if typ[0] == "D" else (">", typ, goal)
    return term, goal


def script(draw):
    """A term and what it is held to: fst (unit, s) for terms s that synthesize, so that every conclusion of s is in the tree; or a
    proof of a goal that is drawn, often among the parts of the hypotheses."""
    while True:
        wild = Wild(draw)
        entries = setting(wild, draw)
        if draw.chance(.45):
            term, found = wild.synthesized(entries, draw.of((2, 3, 4, 5, 6, 7)))
            if found[0] == "D" and draw.chance(.9):
                continue
            term, goal = one("ProjectFst", pair(UNIT, term)), TRUE
        else:
            pool = [p for e in entries if e[2][0] != "D" for p in parts(e[2])]
            goal = draw.of(pool) if pool and draw.chance(.5) else wild.prop(entries, draw.of((1, 2, 3)))
            term = wild.proof(goal, entries, draw.of((2, 3, 4, 5, 6)))
        term, goal = closed(draw, entries, goal, term)
        try:
            return term, written(draw, goal, [], .3)
        except Unwritable:
            continue
