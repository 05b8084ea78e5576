"""Scripts with something changed: one node of a near miss, some bytes of a damaged table, only the order of the records of a reordered one."""
from . import trees
from .trees import Prop, SORRY, Term, UNIT
from .small import TYPES

NONE = 65535

NAMES = (trees.X, trees.Y, trees.Z, trees.H, trees.G)
TERM_SHAPES = {}
for kind, names, children in (("Ident", 1, 0), ("Unit", 0, 0), ("Sorry", 0, 0), ("ProjectFst", 0, 1), ("ProjectSnd", 0, 1), ("OrLeft", 0, 1),
                              ("OrRight", 0, 1), ("Abort", 0, 1), ("TypeAscription", 0, 1), ("Function", 1, 1), ("Pair", 0, 2), ("Application", 0, 2),
                              ("LetIn", 2, 2), ("Case", 2, 3)):
    TERM_SHAPES.setdefault(children, []).append((kind, names))


# Near misses

def size(tree):
    """Nodes of a term, its annotations counted, or of a proposition."""
    below = sum(map(size, tree.children))
    annotation = tree.type if isinstance(tree, Term) else None
    return 1 + below + (size(annotation) if isinstance(annotation, Prop) else 0)


def at(tree, place, change):
    """The tree with node number `place` changed."""
    if place == 0:
        return change(tree)
    place -= 1
    if isinstance(tree, Term) and isinstance(tree.type, Prop):
        if place < size(tree.type):
            return tree._replace(type=at(tree.type, place, change))
        place -= size(tree.type)
    children = list(tree.children)
    for i, child in enumerate(children):
        if place < size(child):
            children[i] = at(child, place, change)
            break
        place -= size(child)
    return tree._replace(children=tuple(children))


def other_prop(draw, p):
    k = draw.below(6)
    if k == 0 and p.names:
        i = draw.below(len(p.names))
        return p._replace(names=p.names[:i] + (draw.of(p.names + NAMES),) + p.names[i + 1:])
    if k == 1 and len(p.children) == 2:
        return p._replace(children=p.children[::-1])
    if k == 2 and len(p.children) == 2:
        return p._replace(kind=draw.of(("And", "Or", "Impl")))
    if k == 3 and len(p.children) == 1:
        return p._replace(kind=draw.of(("ForAll", "Exists")))
    if k == 4 and p.kind == "Atom" and len(p.names) > 1:
        return p._replace(names=p.names[:-1])
    return draw.of((trees.TRUE, trees.FALSE, trees.atom(trees.A), p.children[0] if p.children else trees.atom(trees.B)))


def other_term(draw, t):
    k = draw.below(7)
    if k == 0 and t.names:
        i = draw.below(len(t.names))
        return t._replace(names=t.names[:i] + (draw.of(NAMES),) + t.names[i + 1:])
    if k == 1 and len(t.children) > 1:
        return t._replace(children=t.children[1:] + t.children[:1])
    if k == 2 and t.kind in ("Function", "TypeAscription"):
        return t._replace(type=draw.of(TYPES))
    if k == 3:
        kind, names = draw.of(TERM_SHAPES[len(t.children)])
        given = tuple(draw.of(NAMES) for _ in range(names))
        return Term(kind, given, t.children, draw.of(TYPES) if kind == "TypeAscription" else None)
    if k == 4 and t.children:
        return draw.of(t.children)
    if k == 5:
        return trees.one(draw.of(("ProjectFst", "ProjectSnd", "OrLeft", "OrRight", "Abort")), t)
    return draw.of((UNIT, SORRY, trees.ident(draw.of(NAMES)), trees.ascribed(t, draw.of(TYPES))))


def near_miss(draw, term, expected):
    """One node changed, of the term or, less often, of what it is held to."""
    def changed(node):
        return (other_term if isinstance(node, Term) else other_prop)(draw, node)
    if draw.chance(.75):
        return at(term, draw.below(size(term)), changed), expected
    return term, at(expected, draw.below(size(expected)), changed)


# Bytes

def word(data, at):
    return data[at] + 256 * data[at + 1]


def put_word(data, at, value):
    data[at:at + 2] = value.to_bytes(2, "little")


PROP_LINKS = {2: (2, 4), 3: (2, 4), 4: (2, 4), 5: (6,), 6: (6,)}
TERM_LINKS = {1: (8, 10), 2: (8,), 3: (8,), 4: (8,), 5: (8, 10), 6: (8, 10), 7: (8,), 8: (8,), 9: (8, 10, 12), 10: (8,), 12: (8,)}


def unfolded(draw, roots, children):
    """All numbers below the roots in an order that is drawn, parents first."""
    order, ready = [], list(roots)
    while ready:
        number = draw.pop(ready)
        order.append(number)
        ready += children(number)
    return order


def reordered(draw, data):
    """The same table, or filling, with its records in another lawful order."""
    p, t = word(data, 6), word(data, 8)
    props = [bytearray(data[16 + 16 * i:32 + 16 * i]) for i in range(p)]
    terms = [bytearray(data[16 + 16 * (p + i):32 + 16 * (p + i)]) for i in range(t)]
    expected = [] if word(data, 10) == NONE else [word(data, 10)]
    roots = [word(r, 2) for r in terms if r[1] == 1] + expected
    order = unfolded(draw, roots, lambda n: [word(props[n], at) for at in PROP_LINKS.get(props[n][0], ())])[::-1]
    new_prop = {old: new for new, old in enumerate(order)}
    term_order = unfolded(draw, [0], lambda n: [word(terms[n], at) for at in TERM_LINKS.get(terms[n][0], ())])
    new_term = {old: new for new, old in enumerate(term_order)}
    for record in props:
        for at in PROP_LINKS.get(record[0], ()):
            put_word(record, at, new_prop[word(record, at)])
    for record in terms:
        for at in TERM_LINKS.get(record[0], ()):
            put_word(record, at, new_term[word(record, at)])
        if record[1] == 1:
            put_word(record, 2, new_prop[word(record, 2)])
    head = bytearray(data[:16])
    for number in expected:
        put_word(head, 10, new_prop[number])
    return bytes(head) + b"".join(props[old] for old in order) + b"".join(terms[old] for old in term_order)


def damaged(draw, data):
    """A few bytes changed, two records swapped, or the length."""
    data = bytearray(data)
    k = draw.below(10)
    if k < 3:
        data[draw.below(len(data))] ^= 1 << draw.below(8)
    elif k < 6:
        # a word of a record becomes another small number: names, links and kinds are hit alike
        put_word(data, 16 + 2 * draw.below((len(data) - 16) // 2), draw.below(24))
    elif k < 7:
        data[draw.below(len(data))] = draw.below(256)
    elif k < 9:
        count = (len(data) - 16) // 16
        i, j = 16 + 16 * draw.below(count), 16 + 16 * draw.below(count)
        data[i:i + 16], data[j:j + 16] = data[j:j + 16], data[i:i + 16]
    elif draw.chance(.5):
        data = data[:draw.below(len(data)) + 1]
    else:
        data += bytes(1 + draw.below(40))
    return bytes(data)
