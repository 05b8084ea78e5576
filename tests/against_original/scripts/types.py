"""Types as a run has them, for drawing terms that mostly fit.

A proposition is ("A"/"E", name, datatype, body), ("&"/"|"/">", p, q), ("T",), ("F",) or ("p", predicate, parameters) with parameters
("b", quantifiers between) and ("s", serial); ("D", datatype) is a datatype."""
from . import trees

NAMES = (trees.X, trees.Y, trees.Z)
DATA = (trees.D, trees.D, trees.D, trees.C)
SIGNS = {"&": "And", "|": "Or", ">": "Impl", "A": "ForAll", "E": "Exists"}


class Unwritable(Exception):
    """The names at hand cannot spell it."""


def change(p, f, between=0):
    if p[0] in "AE":
        return (p[0], p[1], p[2], change(p[3], f, between + 1))
    if p[0] in "&|>":
        return (p[0], change(p[1], f, between), change(p[2], f, between))
    if p[0] == "p":
        return ("p", p[1], tuple(f(x, between) for x in p[2]))
    return p


def put(body, serial):
    return change(body, lambda x, between: ("s", serial) if x == ("b", between) else x)


def bind(p, serial):
    return change(p, lambda x, between: ("b", between) if x == ("s", serial) else x)


def holds(p, serial):
    found = []
    change(p, lambda x, _: found.append(x))
    return ("s", serial) in found


def nameless(p):
    if p[0] in "AE":
        return (p[0], p[2], nameless(p[3]))
    return (p[0], nameless(p[1]), nameless(p[2])) if p[0] in "&|>" else p


def parts(p):
    """The proposition and everything in it that no quantifier of it binds."""
    yield p
    if p[0] in "&|>":
        yield from parts(p[1])
        yield from parts(p[2])


def latest(context, name):
    for entry in reversed(context):
        if entry[0] == name:
            return entry
    return None


def visible(context):
    return [entry for entry in context if latest(context, entry[0]) is entry]


def spelled(x, context, binders):
    """A name for a parameter."""
    if x[0] == "b":
        name = binders[x[1]] if x[1] < len(binders) else None
        if name is None or binders.index(name) != x[1]:
            raise Unwritable
        return name
    for entry in visible(context):
        if entry[1] == x[1] and entry[0] not in binders:
            return entry[0]
    raise Unwritable


def written(draw, p, context, rename, binders=()):
    """A tree that stands for p; each quantifier is renamed by that chance."""
    if p[0] in "AE":
        names = [draw.of(NAMES), p[1], trees.V + len(binders)] if draw.chance(rename) else [p[1]]
        for x in names:
            try:
                return trees.Prop(SIGNS[p[0]], (x, p[2]), (written(draw, p[3], context, rename, (x,) + binders),))
            except Unwritable:
                pass
        raise Unwritable
    if p[0] in "&|>":
        return trees.link(SIGNS[p[0]], written(draw, p[1], context, rename, binders), written(draw, p[2], context, rename, binders))
    if p[0] == "p":
        return trees.atom(p[1], *(spelled(x, context, binders) for x in p[2]))
    return trees.TRUE if p[0] == "T" else trees.FALSE


def drawn(draw, depth, binders=0, known=()):
    """A proposition; `known` are the serials that it may hold."""
    k = draw.below(100)
    if depth == 0 or k < 25:
        pool = [("b", i) for i in range(binders)] + [("s", serial) for serial in known]
        if not pool or draw.chance(.1):
            return ("p", draw.of((trees.A, trees.A, trees.B)), ())
        count = draw.of((1, 1, 2, 2, 2, 3, 4))
        return ("p", trees.P if count == 1 else trees.Q, tuple(draw.of(pool) for _ in range(count)))
    if k < 65:
        return (draw.of("AAE"), draw.of(NAMES), draw.of(DATA), drawn(draw, depth - 1, binders + 1, known))
    if k < 95:
        return (draw.of("&&||>>"), drawn(draw, depth - 1, binders, known), drawn(draw, depth - 1, binders, known))
    return draw.of((("T",), ("F",)))
