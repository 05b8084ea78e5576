#!/usr/bin/env python3
"""Writes the scripts that take the checker longest, as far as the limits of document 01 let them, and a few for comparison.

usage: make.py FOLDER    writes FOLDER/NAME.ndt for each; README.md says what they are and why none can be much slower"""
import os
import sys

HERE = os.path.dirname(os.path.abspath(__file__))
sys.path.insert(0, os.path.join(HERE, "..", "against_original"))

from scripts import trees  # noqa: E402
from scripts.large import conjunction, pairs, piled  # noqa: E402
from scripts.trees import SORRY, TRUE, UNIT, apply, ascribed, atom, case, exists, forall, function, ident, let, link, one, pair, table  # noqa: E402

A, D, P, F, G, H, K, X, Y = trees.A, trees.D, trees.P, trees.F, trees.G, trees.H, trees.V, trees.X, trees.Y
PROPOSITIONS, TERMS, DEPTH, MADE = 1024, 512, 64, 2048
LEVELS = 8  # of pairs above 129 to 256 leaves


def large_type(nodes):
    """At most so many nodes: atoms with four parameters, and what links them, under one quantifier. No name is free."""
    return forall(X, D, conjunction(atom(P, X, X, X, X), nodes // 2))


def implies(*props):
    return props[0] if len(props) == 1 else link("Impl", props[0], implies(*props[1:]))


def functions(names, body):
    return piled(len(names), lambda i, t: function(names[-1 - i], None, t), body)


def small():
    """Case 1 of document 01."""
    return function(H, None, ident(H)), implies(atom(A), atom(A))


def ordinary():
    """36 terms: an And of four taken apart and put together in another order, twice."""
    def taken(path):
        return piled(len(path), lambda i, t: one("ProjectFst" if path[-1 - i] == "1" else "ProjectSnd", t), ident(H))
    four = [atom(A + i) for i in range(4)]
    goal = link("And", link("And", four[3], four[2]), link("And", four[1], four[0]))
    swapped = pair(pair(taken("22"), taken("12")), pair(taken("21"), taken("11")))
    return function(H, None, pair(swapped, pair(swapped, taken("22")))), implies(link("And", link("And", four[0], four[1]), link("And", four[2], four[3])),
                                                                              link("And", goal, link("And", goal, four[3])))


def full():
    """1,024 propositions and 512 terms: a pair of 256 units, one of them left open, ascribed."""
    leaves = TERMS // 2
    parts, goals = pairs(UNIT, leaves), conjunction(TRUE, leaves)
    return ascribed(first(parts, SORRY), first(goals, forall(X, D, TRUE))), first(goals, forall(X, D, TRUE))


def first(tree, leaf):
    """A tree with its first leaf replaced."""
    if not tree.children:
        return leaf
    return tree._replace(children=(first(tree.children[0], leaf),) + tree.children[1:])


def lets():
    """The slowest. A pair of many h's is the body of as many lets as the depth leaves room for. Its type is synthesized: as a tree it has h's type once for
    each h, and each let looks for its witness in all of it."""
    count = DEPTH - 3 - 1 - LEVELS - 1
    leaves = (TERMS - 3 - 2 * count - 1) // 2
    body = piled(count, lambda i, t: let(X, K, ident(G), t), pair(UNIT, pairs(ident(H), leaves)))
    return functions((H, G), one("ProjectFst", body)), implies(large_type(PROPOSITIONS - 5), exists(X, D, TRUE), TRUE)


def arms():
    """Cases within arms of cases. Two lets have made two copies of one type, and each case holds a left arm, of the one, against a right arm, of the other."""
    count = 50
    nodes = (MADE - 2 * count) // 2 - 24
    leaves = 3

    def over(i, t):
        return case(F, F, ident(G), pairs(ident(H if i % 2 else K), leaves), t)
    body = piled(count, over, pairs(ident(K), leaves))
    opened = let(X, H, ident(Y), let(X, K, ident(Y), one("ProjectFst", pair(UNIT, body))))
    return functions((Y, G), opened), implies(exists(X, D, large_type(nodes)), link("Or", TRUE, TRUE), TRUE)


def arguments():
    """A function applied as often as there are terms for it, each time to an argument of another copy of its parameter's type."""
    calls = (TERMS - 4) // 4
    nodes = (PROPOSITIONS - 6) // 2
    use = apply(ident(F), ident(H))
    return functions((F, H), one("ProjectFst", pair(UNIT, pairs(use, calls)))), implies(implies(large_type(nodes), TRUE), large_type(nodes), TRUE)


def names():
    """The longest context, and an annotation in which each parameter is the name of its oldest entry."""
    count = DEPTH - 8
    nodes = PROPOSITIONS - 10
    annotation = conjunction(atom(P, Y, Y, Y, Y), nodes // 2)
    body = piled(count, lambda i, t: let(X, K, ident(G), t), one("ProjectFst", pair(UNIT, ascribed(SORRY, annotation))))
    return functions((Y, G), body), forall(Y, D, implies(exists(X, D, TRUE), TRUE))


def alphas():
    """Applications within each other: each result is alpha-equal to what is wanted, so that the tree below it moves up by one record."""
    count = DEPTH - 3 - LEVELS - 4
    leaves = (TERMS - 2 * count - 8) // 2
    inner = one("ProjectFst", pair(ident(H), pairs(UNIT, leaves)))
    body = piled(count, lambda i, t: apply(ident(F), t), inner)
    return functions((F, H), body), implies(implies(forall(X, D, atom(P, X)), forall(Y, D, atom(P, Y))), forall(X, D, atom(P, X)), forall(X, D, atom(P, X)))


def made():
    """As many made propositions as may be."""
    body = conjunction(atom(P, X, Y, H, X), 341)
    return functions((X, Y, H), one("Abort", one("Abort", SORRY))), piled(3, lambda i, p: forall((X, Y, H)[i], D, p), body)


SCRIPTS = (small, ordinary, full, lets, arms, arguments, names, alphas, made)


def main():
    if len(sys.argv) != 2:
        sys.exit(__doc__)
    os.makedirs(sys.argv[1], exist_ok=True)
    for script in SCRIPTS:
        data = table(*script())
        with open(os.path.join(sys.argv[1], script.__name__ + ".ndt"), "wb") as file:
            file.write(data)
        print("%-10s %4d propositions %3d terms" % (script.__name__, int.from_bytes(data[6:8], "little"), int.from_bytes(data[8:10], "little")))


if __name__ == "__main__":
    main()
