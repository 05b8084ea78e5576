"""A smaller script with the same fault."""
import os
import sys

sys.path.insert(0, os.path.join(os.path.dirname(os.path.abspath(__file__)), "..", "..", "..", "tools"))

from ndt.oddities import Oddities  # noqa: E402
from ndt.show import prop_at, term_at  # noqa: E402
from . import trees  # noqa: E402
from .damage import at, size  # noqa: E402
from .trees import SORRY, Term, UNIT, table  # noqa: E402


def smaller(node):
    """What may stand in a node's place."""
    if isinstance(node, Term):
        yield from node.children
        yield from (leaf for leaf in (UNIT, SORRY) if node.children or node.kind == "Ident")
        if node.kind == "Function" and node.type is not None:
            yield node._replace(type=None)
    else:
        yield from node.children
        if node.children:
            yield trees.atom(trees.A)
        if node.kind == "Atom" and len(node.names) > 1:
            yield node._replace(names=node.names[:-1])


def candidates(tree):
    for place in range(size(tree)):
        found = []
        at(tree, place, lambda node: found.append(node) or node)
        for other in smaller(found[0]):
            yield at(tree, place, lambda node, other=other: other)


def scripts(term, expected):
    yield from ((t, expected) for t in candidates(term))
    yield from ((term, p) for p in candidates(expected))
    # a function and the proposition that it is held to lose their heads together
    if term.kind == "Function" and expected.kind in ("Impl", "ForAll"):
        yield term.children[0], expected.children[-1]


def shrunk(data, faulty):
    """A table that is not well formed stays as it is; of another, whatever can go goes."""
    odd = Oddities(data) if len(data) >= 16 else None
    if odd is None or odd.remarks:
        return data
    term, expected = term_at(odd.parts, 0), prop_at(odd.parts, odd.parts.header["expected"])
    if not faulty(table(term, expected)):
        return data
    going = True
    while going:
        going = False
        for other in scripts(term, expected):
            if faulty(table(*other)):
                (term, expected), going = other, True
                break
    return table(term, expected)
