"""All small terms over two names. x is an object and y a hypothesis:

    fun x. fun y. t  :  all x:D. H -> E

for every H and E below; and t alone against every E. The order is fixed."""
import itertools

from .trees import (A, D, FALSE, P, SORRY, TRUE, UNIT, X, Y, apply, ascribed, atom, case, exists, forall, function, ident, let, link, one, pair,
                    table)

NAMES = (X, Y)
UNARY = ("ProjectFst", "ProjectSnd", "OrLeft", "OrRight", "Abort")
TYPES = (D, atom(A), TRUE, atom(P, X), atom(P, Y), forall(Y, D, atom(P, Y)))
HYPOTHESES = (atom(A), link("And", atom(A), atom(P, X)), link("Or", atom(A), atom(A)), link("Impl", atom(A), atom(A)), FALSE,
              forall(Y, D, atom(P, Y)), exists(X, D, atom(P, X)))
GOALS = (atom(A), TRUE, atom(P, X), link("And", atom(A), TRUE), link("Or", atom(A), TRUE), link("Impl", atom(A), atom(A)),
         forall(X, D, atom(P, X)), exists(Y, D, atom(P, Y)))
CLOSED = tuple(goal for goal in GOALS if goal != atom(P, X))


def over(t):
    """The terms with one node above t."""
    yield from (one(kind, t) for kind in UNARY)
    yield from (function(x, annotation, t) for x in NAMES for annotation in (None,) + TYPES)
    yield from (ascribed(t, annotation) for annotation in TYPES)


def terms(n, known={}):
    """The terms of n nodes."""
    if n not in known:
        known[n] = list(fresh_terms(n))
    return known[n]


def fresh_terms(n):
    if n == 1:
        yield from [ident(x) for x in NAMES] + [UNIT, SORRY]
    for t in terms(n - 1) if n > 1 else ():
        yield from over(t)
    for i in range(1, n - 1):
        for a, b in itertools.product(terms(i), terms(n - 1 - i)):
            yield from (pair(a, b), apply(a, b))
            yield from (let(x, k, a, b) for x in NAMES for k in NAMES)
    for i, j in itertools.product(range(1, n - 2), repeat=2):
        if i + j < n - 1:
            for a, b, c in itertools.product(terms(i), terms(j), terms(n - 1 - i - j)):
                yield from (case(x, k, a, b, c) for x in NAMES for k in NAMES)


def under_two(t, hypothesis, goal):
    return table(function(X, None, function(Y, None, t)), forall(X, D, link("Impl", hypothesis, goal)))


def tables(n):
    """Every term of n nodes in every setting."""
    for t in terms(n):
        for hypothesis, goal in itertools.product(HYPOTHESES, GOALS):
            yield under_two(t, hypothesis, goal)
        for goal in CLOSED:
            yield table(t, goal)


def some(n, count, draw):
    """Terms of n nodes, drawn, in settings that are drawn."""
    for _ in range(count):
        yield under_two(draw.of(terms(n)), draw.of(HYPOTHESES), draw.of(GOALS))
