"""Refusal 7: free names in the expected proposition."""
from .row import PASSES, check, filling, refused, script
from .shapes import FULL_PROP

BOUND = [
    ("bound by all", "all x:D. P(x)"),
    ("bound by ex", "ex x:D. P(x)"),
    ("bound through an And", "all x:D. (A & P(x))"),
    ("bound through an Or", "all x:D. (P(x) | A)"),
    ("bound through an Impl", "ex x:D. (A -> P(x))"),
    ("bound through another quantifier", "all x:D. ex y:D. P(x)"),
    ("two names, each its own quantifier", "all x:D. ex y:C. P(x,y,x,y)"),
    ("the outermost of 31 quantifiers", "all x:D. " + "all y:D. " * 30 + "P(x)"),
    ("the innermost of 31 quantifiers", "all y:D. " * 30 + "all x:D. P(x)"),
    ("bound twice", "all x:D. all x:C. P(x)"),
    ("bound inside and outside a second quantifier of the name", "all x:D. ((ex x:C. P(x)) & P(x))"),
    ("bound again on the right", "(all x:D. P(x)) & all x:D. P(x)"),
    ("name 0 bound", "all #0:D. P(#0)"),
    ("name 65,535 bound", "ex #65535:D. P(#65535)"),
    ("four parameters bound", "all x:D. all y:D. all z:D. all w:D. P(x,y,z,w)"),
    ("in the middle of a long proposition", "A -> (B & all x:D. (P(x) -> ex y:C. (Q(x,y) | R(y)))) -> B"),
]

NO_PARAMETERS = [
    ("a predicate that nothing binds", "P"),
    ("a predicate that is a bound name", "all x:D. x"),
    ("a datatype that is its own object name", "all x:x. P(x)"),
    ("a datatype that is the object name above", "all x:D. all y:x. P(y)"),
]

# With the number of the expected proposition, which is the place.
FREE = [
    ("an atom alone", "P(x)", 0),
    ("under no quantifier", "A & P(x)", 2),
    ("the second parameter", "all x:D. P(x,y)", 1),
    ("the third parameter", "all x:D. P(x,x,y)", 1),
    ("the fourth parameter", "all x:D. P(x,x,x,y)", 1),
    ("the first parameter of four", "all x:D. P(y,x,x,x)", 1),
    ("the datatype of its quantifier", "all x:D. P(D)", 1),
    ("its own predicate", "all x:D. P(P)", 1),
    ("to the right of its quantifier", "(all x:D. P(x)) & P(x)", 3),
    ("to the left of its quantifier", "P(x) & all x:D. P(x)", 3),
    ("after an ex in an Impl", "(ex x:D. P(x)) -> P(x)", 3),
    ("before an ex in an Or", "P(x) | ex x:D. A", 3),
    ("to the right of its quantifier, under another", "all x:D. ((ex y:D. P(y)) & P(y))", 4),
    ("to the left of its quantifier, under another", "all x:D. (P(y) & ex y:D. P(y))", 4),
    ("under 31 other quantifiers", "all y:D. " * 31 + "P(x)", 31),
    ("under a quantifier with a name 256 more", "all #10:D. P(#266)", 1),
    ("under a quantifier with a name 256 less", "all #266:D. P(#10)", 1),
    ("name 0", "P(#0)", 0),
    ("name 65,535", "all #0:D. P(#65535)", 1),
    ("name 0 under another", "all #1:D. P(#0)", 1),
    ("deep on the right", "A -> (B -> (all x:D. (C -> (P(x) & P(y)))))", 9),
    ("deep on the left", "((((P(x) & A) | B) -> C) & (all x:D. P(x)))", 9),
]

TERMS_DO_NOT_BIND = [
    check("free: a function's name", "check fun x. x : P(x)", refused(7, 0),
          "quantifiers bind; a function doesn't bind in the expected proposition"),
    check("free: a quantifier of an annotation", "check (sorry : [all x:D. P(x)]) : P(x)", refused(7, 2),
          "a quantifier of another proposition isn't above it"),
]

ANNOTATIONS = [
    check("a free name in an ascription", "check (unit : [P(x)]) : T", PASSES, "test 7 looks at the expected proposition only"),
    check("a free name in a function's annotation", "check fun x : [P(x)]. x : all x:D. P(x)", PASSES,
          "test 7 looks at the expected proposition only"),
    check("free: in an annotation and in the expected proposition", "check (unit : [A & P(x)]) : P(x)", refused(7, 3),
          "the place is the expected proposition's number"),
    filling("a filling's free name", "filling (unit : [P(x)])", PASSES, "a filling has no test 7"),
    filling("a filling's parameter outside its quantifier", "filling (unit : [(all x:D. P(x)) & P(x)])", PASSES,
            "a filling has no test 7"),
]

# Where numbers of records don't tell what stands above what.
ORDERS = [
    check("free: the expected proposition in the middle",
          script("header props 3 terms 3 expected 1", "prop True", "prop Atom count 1 a 10 p1 11", "prop True",
                 "term TypeAscription tag 1 type 0 child1 1", "term TypeAscription tag 1 type 2 child1 2", "term Unit"),
          refused(7, 1), "the place is the expected proposition's number"),
    check("bound: each under its own of two quantifiers",
          script("header props 5 terms 1 expected 4", "prop Atom count 1 a 10 p1 11", "prop Atom count 1 a 10 p1 12",
                 "prop ForAll a 12 b 20 c 1", "prop ForAll a 11 b 20 c 0", "prop And a 2 b 3", "term Sorry"),
          PASSES, "the nearest quantifier by number is not the one above"),
    check("free: each under the other of two quantifiers",
          script("header props 5 terms 1 expected 4", "prop Atom count 1 a 10 p1 11", "prop Atom count 1 a 10 p1 12",
                 "prop ForAll a 12 b 20 c 0", "prop ForAll a 11 b 20 c 1", "prop And a 2 b 3", "term Sorry"),
          refused(7, 4), "0 names 11 under the quantifier of 12, and 1 the other way round"),
    check("free: one of two under the other's quantifier",
          script("header props 5 terms 1 expected 4", "prop Atom count 1 a 10 p1 11", "prop Atom count 1 a 10 p1 11",
                 "prop ForAll a 11 b 20 c 0", "prop ForAll a 12 b 20 c 1", "prop And a 2 b 3", "term Sorry"),
          refused(7, 4), "1 names 11 under the quantifier of 12"),
    check("bound: the quantifier far above its atom",
          script("header props 5 terms 1 expected 4", "prop Atom count 1 a 10 p1 11", "prop True", "prop ForAll a 12 b 20 c 1",
                 "prop Or a 2 b 0", "prop Exists a 11 b 20 c 3", "term Sorry"),
          PASSES, "a quantifier between the two by number isn't between them in the tree"),
    check("a free name in an annotation above the expected proposition",
          script("header props 2 terms 2 expected 0", "prop True", "prop Atom count 1 a 10 p1 11",
                 "term TypeAscription tag 1 type 1 child1 1", "term Unit"),
          PASSES, "test 7 looks at the expected proposition only"),
    check("a free name in an annotation among the expected proposition's records",
          script("header props 3 terms 2 expected 2", "prop Atom count 1 a 10 p1 11", "prop Atom count 1 a 10 p1 12",
                 "prop ForAll a 11 b 20 c 0", "term TypeAscription tag 1 type 1 child1 1", "term Unit"),
          PASSES, "test 7 looks at the expected proposition only"),
    check("free: a leaf of 1,024 propositions", script("check sorry : " + FULL_PROP, "set prop 0 kind Atom count 1 p1 9"),
          refused(7, 1023), "the place is the expected proposition's number"),
    check("bound: a leaf of 1,024 propositions", script("check sorry : " + FULL_PROP, "set prop 0 kind Atom count 1 p1 10"),
          PASSES, "the quantifier on top has the object name 10"),
    check("a spare count of a parameter 0", script("check sorry : A", "set prop 0 count 1"), refused(7, 0),
          "the count makes the zero a name, and nothing binds it"),
    check("a spare count of a parameter 0 that is bound", script("check sorry : all #0:D. A", "set prop 0 count 4"), PASSES,
          "the count makes the zeros a name, and the quantifier binds it"),
]

ROWS = [
    *(check("bound: " + label, "check sorry : " + text, PASSES, "no parameter is free") for label, text in BOUND),
    *(check(label, "check sorry : " + text, PASSES, "only parameters can be free") for label, text in NO_PARAMETERS),
    *(check("free: " + label, "check sorry : " + text, refused(7, number),
            "no quantifier above has that object name; the place is the expected proposition's number")
      for label, text, number in FREE),
    *TERMS_DO_NOT_BIND,
    *ANNOTATIONS,
    *ORDERS,
]
