"""Scripts at the limits: many terms, many propositions, deep terms, high propositions, and runs that make about as many propositions as a run may."""
from . import trees
from .trees import SORRY, TRUE, UNIT, apply, ascribed, atom, case, exists, forall, function, ident, let, link, one, pair

A, D, P, X, Y, H = trees.A, trees.D, trees.P, trees.X, trees.Y, trees.H


def conjunction(leaf, leaves):
    """A balanced And."""
    return leaf if leaves == 1 else link("And", conjunction(leaf, leaves // 2), conjunction(leaf, leaves - leaves // 2))


def pairs(leaf, leaves):
    return leaf if leaves == 1 else pair(pairs(leaf, leaves // 2), pairs(leaf, leaves - leaves // 2))


def piled(count, over, inner):
    for i in range(count):
        inner = over(i, inner)
    return inner


def full(draw):
    """Some 250 leaves, all of one kind."""
    n = 200 + draw.below(60)
    leaf = draw.of((UNIT, SORRY, ascribed(UNIT, TRUE), one("ProjectFst", pair(UNIT, UNIT))))
    return pairs(leaf, n), conjunction(TRUE, n)


def deep(draw):
    """About 64 deep."""
    def over(i, t):
        k = draw.below(4)
        if k == 0:
            return ascribed(t, TRUE)
        if k == 1:
            return one("ProjectFst", pair(t, UNIT))
        if k == 2:
            return one("ProjectSnd", pair(UNIT, t))
        x = draw.of((X, Y))
        return apply(function(x, TRUE, draw.of((UNIT, ident(x)))), t)
    return piled(32 + draw.below(12), over, draw.of((UNIT, UNIT, ascribed(SORRY, TRUE)))), TRUE


def high(draw):
    """About 32 high: quantifiers, opened by functions."""
    n = 26 + draw.below(5)
    goal = piled(n, lambda i, p: (exists if draw.chance(.05) else forall)(draw.of((X, Y)), D, p), draw.of((atom(P, X), atom(A), atom(P, X, Y))))
    return piled(draw.below(n + 1), lambda i, t: function(draw.of((X, Y)), None, t), SORRY), forall(X, D, forall(Y, D, goal))


def opened(draw):
    """Three functions open ForAlls over a body of some 680 nodes: about 2,048 propositions."""
    body = conjunction(draw.of((TRUE, atom(P, X))), 339 + draw.below(6))
    inner = draw.of((SORRY, one("Abort", SORRY), one("ProjectFst", pair(SORRY, UNIT)), ascribed(SORRY, TRUE)))
    goal = piled(3, lambda i, p: forall((X, Y, trees.Z)[i], D, p), body)
    return piled(3, lambda i, t: function(draw.of((X, Y)), None, t), inner), goal


def applied(draw):
    """A ForAll over a large body, applied some times; the argument is not always of its datatype."""
    nodes = 150 + draw.below(100)
    hypothesis = forall(X, D, conjunction(atom(P, X), nodes))
    use = apply(ident(H), ident(draw.of((Y, Y, Y, X, H))))
    times = 2048 // (2 * nodes - 1) + draw.below(3) - 1
    term = piled(times, lambda i, t: one("ProjectSnd", pair(use, t)), UNIT)
    return function(H, None, function(Y, None, term)), link("Impl", hypothesis, forall(Y, D, TRUE))


def doubled(draw):
    """Pairs whose parts are shared: their types are much larger as trees than as records."""
    n = 4 + draw.below(4)
    term = piled(n, lambda i, t: apply(function(X, None, pair(ident(X), ident(X))), t) if draw.chance(.1) else pair(t, t), UNIT)
    return one(draw.of(("ProjectFst", "ProjectSnd")), pair(term, draw.of((UNIT, function(X, D, UNIT))))), TRUE


def bound(draw):
    """Annotated functions over datatypes: each synthesized ForAll copies what is below it. As many are made as may be, or a few more or less."""
    n = 2 + draw.below(8)
    names = [draw.of((X, Y)) for _ in range(n)]
    # 3 for the two functions around; then the annotation, b nodes, and b + 1, b + 2 .. for the ForAlls; then one And.
    leaves = (2044 - n * (n + 1) // 2) // (n + 1) // 2
    nodes = 2 * leaves - 1
    missing = 2044 - n * (n + 1) // 2 - (n + 1) * nodes + draw.below(5) - 2
    body = conjunction(draw.of((atom(P, X), atom(P, X, Y), atom(A))), leaves)
    term = piled(n, lambda i, t: function(names[i], D, t), ascribed(SORRY, body))
    first = piled(max(1, missing), lambda i, t: ascribed(t, TRUE), UNIT)
    return function(X, None, function(Y, None, one("ProjectFst", pair(first, term)))), forall(X, D, forall(Y, D, TRUE))


def nested(draw):
    """Cases and lets within each other's arms."""
    disjunction, witness = link("Or", atom(A), atom(A)), exists(X, D, atom(P, X))
    n = 15 + draw.below(20)

    def over(i, t):
        if draw.chance(.5):
            return case(draw.of((X, Y)), draw.of((X, Y)), ident(H), t, draw.of((UNIT, SORRY)))
        return let(draw.of((X, Y)), draw.of((X, Y)), ident(trees.G), t)
    goal = link("Impl", disjunction, link("Impl", witness, TRUE))
    return function(H, None, function(trees.G, None, piled(n, over, UNIT))), goal


SHAPES = (full, deep, high, opened, applied, doubled, bound, nested)


def script(draw):
    return draw.of(SHAPES)(draw)
