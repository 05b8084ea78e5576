"""Terms and propositions as trees, and tables of them. Names are numbers."""
import os
import sys

sys.path.insert(0, os.path.join(os.path.dirname(os.path.abspath(__file__)), "..", "..", "..", "tools"))

from ndt.build import build  # noqa: E402
from ndt.trees import Prop, Term  # noqa: E402

# Names: objects and hypotheses share the first ones, so that they shadow each other. Then datatypes and predicates.
X, Y, Z, F, G, H, V = 10, 11, 12, 13, 14, 15, 16
D, C = 20, 21
A, B, P, Q = 30, 31, 32, 33

TRUE, FALSE = Prop("True"), Prop("False")


def atom(predicate, *parameters):
    return Prop("Atom", (predicate,) + parameters)


def link(kind, a, b):
    return Prop(kind, (), (a, b))


def forall(x, d, body):
    return Prop("ForAll", (x, d), (body,))


def exists(x, d, body):
    return Prop("Exists", (x, d), (body,))


UNIT, SORRY = Term("Unit"), Term("Sorry")


def ident(x):
    return Term("Ident", (x,))


def one(kind, child):
    return Term(kind, (), (child,))


def pair(a, b):
    return Term("Pair", (), (a, b))


def apply(f, a):
    return Term("Application", (), (f, a))


def function(x, annotation, body):
    return Term("Function", (x,), (body,), annotation)


def let(x, k, head, body):
    return Term("LetIn", (x, k), (head, body))


def case(x, y, head, left, right):
    return Term("Case", (x, y), (head, left, right))


def ascribed(t, annotation):
    return Term("TypeAscription", (), (t,), annotation)


def table(term, expected):
    head, props, terms = build(term, expected)
    return head + b"".join(props) + b"".join(terms)
