"""The rules of document 01 for a table that passes its tests, written down as plainly as they can be, for judging the answers of `trace`.

Nothing here is shared with the tools or with the checker, and nothing is done to be quick.

A proposition is a tuple: ("T",) and ("F",); ("&", p, q), ("|", p, q), (">", p, q); ("A", name, datatype, p) and ("E", name, datatype, p);
("p", predicate, parameters), a parameter being ("f", name), ("s", serial) or ("b", quantifiers between).
A type is a proposition or ("D", datatype)."""
import importlib.util
import os

HERE = os.path.dirname(os.path.abspath(__file__))

IDENT, PAIR, FST, SND, FUNCTION, APPLICATION, LET, LEFT, RIGHT, CASE, ABORT, UNIT, ASCRIPTION, SORRY = range(14)
SIGNS = ("T", "F", "&", "|", ">", "A", "E", "p")
MOST_MADE = 2048


def beside(name, *path):
    """The module in that file. (The tests' reference has this one's name.)"""
    spec = importlib.util.spec_from_file_location(name, os.path.join(HERE, *path))
    module = importlib.util.module_from_spec(spec)
    spec.loader.exec_module(module)
    return module


tests = beside("table_tests", "..", "tables", "reference.py")


class Refused(Exception):
    def __init__(self, number, place):
        super().__init__("refused %d %d" % (number, place))


class Unknown(Exception):
    """A free name without an entry."""


# Propositions

def read(table, number, binders=()):
    """A record of the table as a tuple. Going up from an atom, the first quantifier over a name binds it."""
    record = table.props[number]
    sign = SIGNS[record.kind]
    if sign in "TF":
        return (sign,)
    if sign in "&|>":
        return (sign, read(table, record.a, binders), read(table, record.b, binders))
    if sign in "AE":
        return (sign, record.a, record.b, read(table, record.c, (record.a,) + binders))
    return ("p", record.a, tuple(("b", binders.index(x)) if x in binders else ("f", x) for x in record.parameters[:record.count]))


def changed(p, change, between=0):
    """The same with every parameter changed."""
    if p[0] in "&|>":
        return (p[0], changed(p[1], change, between), changed(p[2], change, between))
    if p[0] in "AE":
        return (p[0], p[1], p[2], changed(p[3], change, between + 1))
    if p[0] == "p":
        return ("p", p[1], tuple(change(x, between) for x in p[2]))
    return p


def put(body, serial):
    return changed(body, lambda x, between: ("s", serial) if x == ("b", between) else x)


def bind(p, serial):
    return changed(p, lambda x, between: ("b", between) if x == ("s", serial) else x)


def holds(p, serial):
    if p[0] in "&|>":
        return holds(p[1], serial) or holds(p[2], serial)
    if p[0] in "AE":
        return holds(p[3], serial)
    return p[0] == "p" and ("s", serial) in p[2]


def nodes(p):
    if p[0] in "&|>":
        return 1 + nodes(p[1]) + nodes(p[2])
    return 1 + nodes(p[3]) if p[0] in "AE" else 1


def nameless(t):
    """A type without its binder names: two are alpha-equal where these are equal."""
    if t[0] in "&|>":
        return (t[0], nameless(t[1]), nameless(t[2]))
    return (t[0], t[2], nameless(t[3])) if t[0] in "AE" else t


def alpha_equal(t, u):
    return t == u or nameless(t) == nameless(u)


def text(p):
    if p[0] in "TF":
        return p[0]
    if p[0] in "&|>":
        return "(%s %s %s)" % (p[0], text(p[1]), text(p[2]))
    if p[0] in "AE":
        return "(%s n%d n%d %s)" % (p[0], p[1], p[2], text(p[3]))
    return "(p n%d%s)" % (p[1], "".join({"f": " fn%d", "s": " s%d", "b": " b%d"}[kind] % x for kind, x in p[2]))


# Trees

class Node:
    def __init__(self, rule, term, conclusion, serials=(), premises=()):
        self.rule, self.term, self.conclusion, self.serials, self.premises = rule, term, conclusion, serials, premises

    def lines(self):
        """Its record and those of its premises, parent first."""
        first, second = (tuple(map(str, self.serials)) + ("-", "-"))[:2]
        said = "s%s : n%d" % (first, self.conclusion[1]) if self.conclusion[0] == "D" else text(self.conclusion)
        yield "%d %d %s %s %d | %s" % (self.rule, self.term, first, second, len(self.premises), said)
        for premise in self.premises:
            yield from premise.lines()


class Run:
    """A run of a table. A context is a list of entries (name, serial, type)."""

    def __init__(self, table):
        self.table, self.terms = table, table.terms
        self.serials = self.made = 0
        self.goals = []

    def serial(self):
        self.serials += 1
        return self.serials - 1

    def make(self, count, place):
        if self.made + count > MOST_MADE:
            raise Refused(30, place)
        self.made += count

    def entry(self, context, name):
        for entry in reversed(context):
            if entry[0] == name:
                return entry
        raise Unknown

    def known(self, context, name, number, place):
        try:
            return self.entry(context, name)
        except Unknown:
            raise Refused(number, place)

    def annotation(self, k, context, number):
        """A term's annotation with its free names resolved."""
        term = self.terms[k]
        if term.tag == 2:
            return ("D", term.type)
        settle = lambda x, _: ("s", self.entry(context, x[1])[1]) if x[0] == "f" else x
        try:
            p = changed(read(self.table, term.type), settle)
        except Unknown:
            raise Refused(number, k)
        self.make(nodes(p), k)
        return p

    # Checking

    def check(self, k, wanted, context):
        kind = self.terms[k].kind
        if kind in (IDENT, FST, SND, APPLICATION):
            tree, found = self.synthesize(k, context)
            if found == wanted:
                return tree
            if alpha_equal(found, wanted):
                return Node(16, k, wanted, (), (tree,))
            raise Refused(14, k)
        if kind == SORRY:
            self.goals.append((k, len(context), wanted))
            return Node(15, k, wanted)
        if kind == UNIT:
            if wanted != ("T",):
                raise Refused(11, k)
            return Node(1, k, wanted)
        rule = {PAIR: self.check_pair, FUNCTION: self.check_function, LET: self.check_let, LEFT: self.check_or, RIGHT: self.check_or,
                CASE: self.check_case, ABORT: self.check_abort, ASCRIPTION: self.check_ascription}[kind]
        return rule(k, wanted, context)

    def check_pair(self, k, wanted, context):
        first, second = self.terms[k].links()
        if wanted[0] == "&":
            return Node(2, k, wanted, (), (self.check(first, wanted[1], context), self.check(second, wanted[2], context)))
        if wanted[0] != "E":
            raise Refused(11, k)
        if self.terms[first].kind != IDENT:
            raise Refused(13, first)
        serial = self.known(context, self.terms[first].names[0], 10, first)[1]
        self.make(nodes(wanted[3]), k)
        one = self.check(first, ("D", wanted[2]), context)
        return Node(13, k, wanted, (), (one, self.check(second, put(wanted[3], serial), context)))

    def check_function(self, k, wanted, context):
        term = self.terms[k]
        serial = self.serial()
        if wanted[0] == ">":
            rule, left, right = 5, wanted[1], wanted[2]
        elif wanted[0] == "A":
            self.make(nodes(wanted[3]), k)
            rule, left, right = 11, ("D", wanted[2]), put(wanted[3], serial)
        else:
            raise Refused(11, k)
        if term.tag != 0 and not alpha_equal(self.annotation(k, context, 10), left):
            raise Refused(14, k)
        body = self.check(term.children[0], right, context + [(term.names[0], serial, left)])
        return Node(rule, k, wanted, (serial,), (body,))

    def open_let(self, k, context, number):
        """The head's tree, both serials, and the context of the body."""
        term = self.terms[k]
        head, found = self.synthesize(term.children[0], context)
        if found[0] != "E":
            raise Refused(number, term.children[0])
        first, second = self.serial(), self.serial()
        self.make(nodes(found[3]), k)
        entries = [(term.names[0], first, ("D", found[2])), (term.names[1], second, put(found[3], first))]
        return head, (first, second), context + entries

    def check_let(self, k, wanted, context):
        body = self.terms[k].children[1]
        head, serials, inside = self.open_let(k, context, 12)
        tree = self.check(body, wanted, inside)
        if wanted[0] == "D":
            raise Refused(13, body)
        if holds(wanted, serials[0]):
            raise Refused(16, body)
        return Node(14, k, wanted, serials, (head, tree))

    def check_or(self, k, wanted, context):
        if wanted[0] != "|":
            raise Refused(11, k)
        left = self.terms[k].kind == LEFT
        return Node(7 if left else 8, k, wanted, (), (self.check(self.terms[k].children[0], wanted[1 if left else 2], context),))

    def case_head(self, k, context, number):
        head = self.terms[k].children[0]
        tree, found = self.synthesize(head, context)
        if found[0] != "|":
            raise Refused(number, head)
        return tree, found[1], found[2]

    def check_case(self, k, wanted, context):
        term = self.terms[k]
        head, left, right = self.case_head(k, context, 12)
        i = self.serial()
        one = self.check(term.children[1], wanted, context + [(term.names[0], i, left)])
        j = self.serial()
        two = self.check(term.children[2], wanted, context + [(term.names[1], j, right)])
        if wanted[0] == "D":
            raise Refused(13, k)
        return Node(9, k, wanted, (i, j), (head, one, two))

    def check_abort(self, k, wanted, context):
        self.make(1, k)
        body = self.check(self.terms[k].children[0], ("F",), context)
        if wanted[0] == "D":
            raise Refused(13, k)
        return Node(10, k, wanted, (), (body,))

    def check_ascription(self, k, wanted, context):
        if not alpha_equal(self.annotation(k, context, 10), wanted):
            raise Refused(15, k)
        return self.check(self.terms[k].children[0], wanted, context)

    # Synthesis: the tree and the type

    def synthesize(self, k, context):
        kind = self.terms[k].kind
        if kind in (LEFT, RIGHT, ABORT, SORRY):
            raise Refused(25, k)
        if kind == IDENT:
            _, serial, found = self.known(context, self.terms[k].names[0], 20, k)
            return Node(0, k, found, (serial,)), found
        if kind == UNIT:
            self.make(1, k)
            return Node(1, k, ("T",)), ("T",)
        rule = {PAIR: self.pair, FST: self.projection, SND: self.projection, FUNCTION: self.function, APPLICATION: self.application,
                LET: self.let, CASE: self.case, ASCRIPTION: self.ascription}[kind]
        return rule(k, context)

    def pair(self, k, context):
        one, p = self.synthesize(self.terms[k].children[0], context)
        two, q = self.synthesize(self.terms[k].children[1], context)
        if q[0] == "D":
            raise Refused(23, k)
        if p[0] == "D":
            raise Refused(25, k)
        self.make(1, k)
        return Node(2, k, ("&", p, q), (), (one, two)), ("&", p, q)

    def projection(self, k, context):
        tree, found = self.synthesize(self.terms[k].children[0], context)
        if found[0] != "&":
            raise Refused(22, k)
        first = self.terms[k].kind == FST
        p = found[1 if first else 2]
        return Node(3 if first else 4, k, p, (), (tree,)), p

    def function(self, k, context):
        term = self.terms[k]
        if term.tag == 0:
            raise Refused(21, k)
        left = self.annotation(k, context, 20)
        serial = self.serial()
        body, right = self.synthesize(term.children[0], context + [(term.names[0], serial, left)])
        if right[0] == "D":
            raise Refused(24, term.children[0])
        if left[0] == "D":
            self.make(nodes(right) + 1, k)
            rule, found = 11, ("A", term.names[0], left[1], bind(right, serial))
        else:
            self.make(1, k)
            rule, found = 5, (">", left, right)
        return Node(rule, k, found, (serial,), (body,)), found

    def application(self, k, context):
        function, argument = self.terms[k].links()
        head, found = self.synthesize(function, context)
        if found[0] == ">":
            return Node(6, k, found[2], (), (head, self.check(argument, found[1], context))), found[2]
        if found[0] != "A":
            raise Refused(22, function)
        if self.terms[argument].kind != IDENT:
            raise Refused(24, argument)
        serial = self.known(context, self.terms[argument].names[0], 20, argument)[1]
        tree = self.check(argument, ("D", found[2]), context)
        self.make(nodes(found[3]), k)
        p = put(found[3], serial)
        return Node(12, k, p, (), (head, tree)), p

    def let(self, k, context):
        body = self.terms[k].children[1]
        head, serials, inside = self.open_let(k, context, 22)
        tree, found = self.synthesize(body, inside)
        if found[0] == "D":
            raise Refused(24, body)
        if holds(found, serials[0]):
            raise Refused(27, body)
        return Node(14, k, found, serials, (head, tree)), found

    def case(self, k, context):
        term = self.terms[k]
        head, left, right = self.case_head(k, context, 22)
        i = self.serial()
        one, p = self.synthesize(term.children[1], context + [(term.names[0], i, left)])
        j = self.serial()
        two, q = self.synthesize(term.children[2], context + [(term.names[1], j, right)])
        if not alpha_equal(p, q):
            raise Refused(26, k)
        if p[0] == "D":
            raise Refused(24, k)
        return Node(9, k, p, (i, j), (head, one, two)), q

    def ascription(self, k, context):
        found = self.annotation(k, context, 20)
        return self.check(self.terms[k].children[0], found, context), found


def answer(data):
    """The lines that `trace` prints of a table, without its number."""
    tested = tests.answer(data, False)
    if tested != "passes":
        return [tested]
    table = tests.Table(data)
    run = Run(table)
    try:
        records = list(run.check(0, read(table, table.expected), []).lines())
    except Refused as refusal:
        return [str(refusal)]
    return (["accepted %d %d" % (len(records), len(run.goals))] + records
            + ["goal %d %d | %s" % (k, length, text(p)) for k, length, p in run.goals]
            + ["counts serials %d made %d" % (run.serials, run.made)])
