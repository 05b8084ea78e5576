"""Triples of an old table, a goal's number and a filling, the same in every run: a batch is drawn from its own name.

Old scripts and fillings are drawn along the rules (tests/against_original/scripts), a filling from what is known at its hole."""
from typing import NamedTuple, Optional

import reference
from scripts import damage, large, trees
from scripts.draw import Draw
from scripts.trees import SORRY, TRUE, UNIT, Term, apply, ascribed, case, function, let, one, pair, table
from scripts.types import Unwritable, written
from scripts.wild import Wild, closed, script, setting

tests = reference.tests
SIZE = 500
# How many batches of each family there are.
BATCHES = {"fit": 65, "near": 20, "foreign": 10, "damaged": 10, "large": 5}
# So many goals of one old script are filled.
FILLED = 4


class Triple(NamedTuple):
    """`hole` is what the reference knows at the goal, if there is one."""
    old: bytes
    goal: int
    filling: bytes
    hole: Optional[reference.Hole]


# Old scripts

def punched(draw, term):
    """One node, with all below it, becomes a Sorry."""
    def hole(node):
        return SORRY if isinstance(node, Term) else node
    return damage.at(term, draw.below(damage.size(term)), hole)


def known(data):
    """What is known at each goal of a table that passes; none if its run is refused."""
    try:
        return reference.holes(tests.Table(data))
    except reference.rules.Refused:
        return []


def known_if_built(data):
    """The same of a table that was built from trees, and so passes tests 2, 4 and 5."""
    fine = tests.test3(data) and not tests.guilty6(tests.Table(data), False) and not tests.guilty7(tests.Table(data), False)
    return known(data) if fine else []


def wrapped(draw, wild, term, goal, context):
    """A proof of the goal in something that makes serials."""
    x, y, k = wild.name(), wild.name(), draw.below(3)
    if k == 0:
        return case(x, y, ascribed(one("OrLeft", UNIT), trees.link("Or", TRUE, TRUE)), term, draw.of((term, SORRY)))
    if k == 1:
        return let(x, y, ascribed(SORRY, trees.exists(trees.X, trees.D, trees.atom(trees.P, trees.X))), term)
    inside = context + [(x, wild.fresh(), ("T",))]
    return apply(function(x, TRUE, ascribed(term, wild.write(goal, inside))), UNIT)


def joined(draw):
    """Two proofs with room for holes in both, one after the other, checked or synthesized."""
    wild = Wild(draw)
    entries = setting(wild, draw)
    depth = draw.of((1, 2, 3, 4))

    def proved(p, inside=entries):
        term = wild.proof(p, inside, depth) if draw.chance(.6) else SORRY
        return wrapped(draw, wild, term, p, inside) if draw.chance(.4) else term
    p, q = wild.prop(entries, draw.of((1, 2, 3))), wild.prop(entries, draw.of((2, 3)))
    k, x, y = draw.below(4), wild.name(), wild.name()
    if k == 0:
        term, goal = pair(proved(p), proved(q)), ("&", p, q)
    elif k == 1:
        term, goal = one("ProjectFst", pair(ascribed(proved(p), wild.write(p, entries)), ascribed(proved(q), wild.write(q, entries)))), p
    elif k == 2:
        head = ascribed(proved(("|", p, q)), wild.write(("|", p, q), entries))
        left = proved(q, entries + [(x, wild.fresh(), p)])
        term, goal = case(x, y, head, left, proved(q, entries + [(y, wild.fresh(), q)])), q
    else:
        inside = entries + [(x, wild.fresh(), p)]
        body = ascribed(proved(q, inside), wild.write(q, inside))
        term, goal = apply(function(x, wild.write(p, entries), body), proved(p)), q
    term, goal = closed(draw, entries, goal, term)
    return term, written(draw, goal, [], .3)


def any_script(draw):
    while True:
        try:
            return joined(draw) if draw.chance(.6) else script(draw)
        except Unwritable:
            pass


def old_script(draw):
    """A table, mostly accepted with goals, and what is known at them."""
    while True:
        term, expected = any_script(draw)
        if draw.chance(.3):
            term = punched(draw, term)
        data = table(term, expected)
        if draw.chance(.3):
            data = damage.reordered(draw, data)
        holes = known_if_built(data)
        if len(holes) > 1 or draw.chance(.3 if holes else .01):
            return data, holes


# Fillings

def fitting(draw, hole):
    """A term that mostly proves the goal."""
    wild = Wild(draw)
    wild.serials = hole.serials
    term = wild.proof(hole.wanted, hole.context, draw.of((0, 1, 2, 3, 4, 5, 6)))
    return wrapped(draw, wild, term, hole.wanted, hole.context) if draw.chance(.4) else term


def foreign(draw, hole):
    """A term that was drawn for something else."""
    wild = Wild(draw)
    wild.serials = hole.serials
    k, depth = draw.below(3), draw.of((1, 2, 3, 4, 5))
    if k == 0:
        return script(draw)[0]
    if k == 1:
        return wild.synthesized(hole.context, depth)[0]
    return wild.proof(wild.prop(hole.context), hole.context, depth)


def drawn_term(draw, family, hole):
    """A term for the hole."""
    try:
        term = (foreign if family == "foreign" else fitting)(draw, hole)
    except Unwritable:
        return SORRY
    return damage.near_miss(draw, term, TRUE)[0] if family == "near" else term


def filling_table(draw, term):
    data = table(term, None)
    return damage.reordered(draw, data) if draw.chance(.3) else data


def goal_number(draw, holes):
    """Mostly one that there is."""
    k = draw.below(100)
    if k < 3 or not holes:
        return len(holes)
    return draw.below(len(holes)) + (65536 if k == 3 else 0)


def damaged(draw, triple):
    """With damage to the filling, or less often to the old table."""
    if draw.chance(.8):
        return triple._replace(filling=damage.damaged(draw, triple.filling))
    old = damage.damaged(draw, triple.old)
    holes = known(old) if tests.answer(old, False) == "passes" else []
    return triple._replace(old=old, hole=holes[triple.goal] if triple.goal < len(holes) else None)


def fillings(draw, family, data, holes, term_for):
    for _ in range(FILLED):
        goal = goal_number(draw, holes)
        hole = holes[goal] if goal < len(holes) else None
        filling = filling_table(draw, term_for(hole) if hole else draw.of((UNIT, SORRY)))
        triple = Triple(data, goal, filling, hole)
        yield damaged(draw, triple) if family == "damaged" else triple


# Scripts at the limits

def many(draw):
    """Some 512 terms: leaves that are Sorries of True, one filled with a tree of pairs."""
    n = 100 + draw.below(100)
    more = 254 - n + draw.below(5)

    def pairs(hole):
        term = one("ProjectFst", pair(UNIT, large.pairs(UNIT, more)))
        return ascribed(term, TRUE) if draw.chance(.5) else term
    return table(large.pairs(SORRY, n), large.conjunction(TRUE, n)), pairs


def wide(draw):
    """Some 1,024 propositions: the expected one, the same as an annotation, and another beside it."""
    n = 200 + draw.below(50)
    body, leaves = large.conjunction(trees.atom(trees.A), n), 512 - (2 * n - 1) + draw.below(4) - 1

    def annotated(hole):
        beside = large.conjunction(TRUE, leaves)
        return one("ProjectFst", pair(ascribed(SORRY, body), ascribed(SORRY, trees.forall(trees.X, trees.D, beside) if draw.chance(.5) else beside)))
    return table(SORRY, body), annotated


def deep(draw):
    """Some 64 deep."""
    over = draw.of((lambda i, t: ascribed(t, TRUE), lambda i, t: one("ProjectFst", pair(t, UNIT)), lambda i, t: one("ProjectSnd", pair(UNIT, t))))
    count = 28 + draw.below(34)
    old = table(large.piled(count, over, ascribed(SORRY, TRUE)), TRUE)
    return old, lambda hole: large.piled(draw.below(40), lambda i, t: ascribed(t, TRUE), draw.of((UNIT, SORRY)))


def aborts(draw, most, inner):
    return large.piled(draw.below(most), lambda i, t: one("Abort", t), inner)


def opened(draw):
    """2,040 propositions are made before the hole, and up to eight behind it."""
    inner = pair(SORRY, aborts(draw, 9, SORRY))
    goal = large.piled(3, lambda i, p: trees.forall((trees.X, trees.Y, trees.Z)[i], trees.D, p), large.conjunction(TRUE, 340))
    old = table(large.piled(3, lambda i, t: function(trees.X, None, t), inner), goal)
    return old, lambda hole: aborts(draw, 11, draw.of((SORRY, ascribed(SORRY, trees.FALSE))))


def bound(draw):
    """Functions around the hole copy what is below them once their bodies are done: some 2,048 are made."""
    return table(*large.bound(draw)), lambda hole: aborts(draw, 5, SORRY)


def any_large(draw):
    """Any other large script, its holes filled along the rules."""
    return table(*large.script(draw)), lambda hole: drawn_term(draw, "fit", hole)


SHAPES = (many, wide, deep, opened, bound, any_large, any_large)


def triples(draw, family):
    if family == "large":
        data, term_for = draw.of(SHAPES)(draw)
        holes = known_if_built(data)
        return fillings(draw, family, data, holes, term_for) if holes or draw.chance(.1) else []
    data, holes = old_script(draw)
    return fillings(draw, family, data, holes, lambda hole: drawn_term(draw, family, hole))


def batch(family, number):
    draw, found = Draw("filling", family, number), []
    while len(found) < SIZE:
        found += triples(draw, family)
    return found[:SIZE]
