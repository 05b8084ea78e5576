"""Refusal 4: kinds, tags, parameter counts and unused fields."""
from .row import PASSES, check, filling, refused, script
from .shapes import LARGEST

# For each kind a proposition that stands under `A &` with its number there, and the fields its kind doesn't use.
PROPS = [
    ("True", "T", 1, "count a b c p1 p2 p3 p4"),
    ("False", "F", 1, "count a b c p1 p2 p3 p4"),
    ("And", "(B & C)", 3, "count c p1 p2 p3 p4"),
    ("Or", "(B | C)", 3, "count c p1 p2 p3 p4"),
    ("Impl", "(B -> C)", 3, "count c p1 p2 p3 p4"),
    ("ForAll", "(all x:D. B)", 2, "count p1 p2 p3 p4"),
    ("Exists", "(ex x:D. B)", 2, "count p1 p2 p3 p4"),
    ("Atom", "B", 1, "b c p1 p2 p3 p4"),
]

# For each kind a term that stands as term 1, the count of propositions then, and the fields its kind doesn't use.
TERMS = [
    ("Ident", "x", 1, "tag type name2 child1 child2 child3 zero"),
    ("Pair", "(x, y)", 1, "tag type name1 name2 child3 zero"),
    ("ProjectFst", "fst x", 1, "tag type name1 name2 child2 child3 zero"),
    ("ProjectSnd", "snd x", 1, "tag type name1 name2 child2 child3 zero"),
    ("Function", "(fun x. y)", 1, "type name2 child2 child3 zero"),
    ("Function of a proposition", "(fun x : [A]. y)", 2, "name2 child2 child3 zero"),
    ("Function of a datatype", "(fun x : @D. y)", 1, "name2 child2 child3 zero"),
    ("Application", "(x y)", 1, "tag type name1 name2 child3 zero"),
    ("LetIn", "(let (x, y) = z in w)", 1, "tag type child3 zero"),
    ("OrLeft", "inl x", 1, "tag type name1 name2 child2 child3 zero"),
    ("OrRight", "inr x", 1, "tag type name1 name2 child2 child3 zero"),
    ("Case", "case x of y. z ; w. v end", 1, "tag type zero"),
    ("Abort", "abort x", 1, "tag type name1 name2 child2 child3 zero"),
    ("Unit", "unit", 1, "tag type name1 name2 child1 child2 child3 zero"),
    ("TypeAscription of a proposition", "(x : [A])", 2, "name1 name2 child2 child3 zero"),
    ("TypeAscription of a datatype", "(x : @D)", 1, "name1 name2 child2 child3 zero"),
    ("Sorry", "sorry", 1, "tag type name1 name2 child1 child2 child3 zero"),
]


def values(field):
    """Values for an unused field: one in each of its bytes. Tags 1 and 2 mean something elsewhere."""
    return {"count": (1, 4), "tag": (1, 2)}.get(field, (1, 256))


def unused_in_props():
    for kind, text, number, fields in PROPS:
        for field in fields.split():
            for value in values(field):
                yield check("%s with %s %d" % (kind, field, value),
                            script("check sorry : A & %s" % text, "set prop %d %s %d" % (number, field, value)),
                            refused(4, number), "%s is unused" % field)


def unused_in_terms():
    for kind, text, props, fields in TERMS:
        for field in fields.split():
            for value in values(field):
                yield check("%s with %s %d" % (kind, field, value),
                            script("check inl %s : T" % text, "set term 1 %s %d" % (field, value)),
                            refused(4, props + 1), "%s is unused; term 1 has the place P + 1" % field)


KINDS = [
    *(check("proposition kind %d" % kind, script("check sorry : A & T", "set prop 1 kind %d" % kind),
            refused(4, 1), "kinds are 0 to 7") for kind in (8, 13, 128, 255)),
    *(check("term kind %d" % kind, script("check inl unit : T", "set term 1 kind %d" % kind),
            refused(4, 2), "kinds are 0 to 13; the place is P + 1") for kind in (14, 15, 128, 255)),
    filling("a filling's proposition kind 8", script("filling (x : [A & T])", "set prop 1 kind 8"),
            refused(4, 1), "fillings take the same test"),
    filling("a filling's term kind 14", script("filling inl unit", "set term 1 kind 14"),
            refused(4, 1), "fillings take the same test; P is 0"),
]

TAGS = [
    *(check("Function with tag %d" % tag, script("check inl (fun x. y) : T", "set term 1 tag %d" % tag),
            refused(4, 2), "a function's tag is 0 to 2") for tag in (3, 128, 255)),
    *(check("TypeAscription with tag %d" % tag, script("check inl (x : @#0) : T", "set term 1 tag %d" % tag),
            refused(4, 2), "an ascription's tag is 1 or 2") for tag in (0, 3, 255)),
    check("TypeAscription with tag 0 and a type", script("check inl (x : @D) : T", "set term 1 tag 0"),
          refused(4, 2), "an ascription's tag is 1 or 2"),
    check("Function that loses its tag", script("check inl (fun x : @D. y) : T", "set term 1 tag 0"),
          refused(4, 2), "under tag 0 the type is unused, and it isn't zero"),
    check("Function that gains tag 2", script("check inl (fun x. y) : T", "set term 1 tag 2"),
          PASSES, "the type field is then datatype 0"),
    check("Function's type under tag 0", script("check inl (fun x. y) : T", "set term 1 type 65535"),
          refused(4, 2), "under tag 0 the type is unused"),
    check("the root's tag", script("check unit : T", "set term 0 tag 2"), refused(4, 1), "the root has the place P"),
]

COUNTS = [
    *(check("an atom with count %d" % count, script("check sorry : A & all x:D. P(x,x,x,x)", "set prop 1 count %d" % count),
            refused(4, 1), "an atom has 0 to 4 parameters") for count in (5, 8, 255)),
    *(check("an atom that loses its last parameter, at count %d" % count,
            script("check sorry : A & all x:D. P(x,x,x,x)", "set prop 1 count %d" % count),
            refused(4, 1), "parameters from the count on are unused, and %d of them aren't zero" % (4 - count))
      for count in (0, 1, 2, 3)),
    check("the parameter after the first", script("check sorry : all x:D. P(x)", "set prop 0 p2 1"),
          refused(4, 0), "parameters from the count on are unused"),
    check("the parameter after the second", script("check sorry : all x:D. P(x,x)", "set prop 0 p3 1"),
          refused(4, 0), "parameters from the count on are unused"),
    check("the parameter after the third", script("check sorry : all x:D. P(x,x,x)", "set prop 0 p4 256"),
          refused(4, 0), "parameters from the count on are unused"),
    check("the last parameter after the first", script("check sorry : all x:D. P(x)", "set prop 0 p4 1"),
          refused(4, 0), "parameters from the count on are unused"),
    check("count 5 with no parameters", script("check sorry : A", "set prop 0 count 5"),
          refused(4, 0), "an atom has 0 to 4 parameters"),
    filling("a filling's count", script("filling (x : [A])", "set prop 0 count 5"),
            refused(4, 0), "fillings take the same test"),
]

PLACES = [
    check("two bad propositions", script("check sorry : A & B", "set prop 2 kind 9", "set prop 1 c 1"),
          refused(4, 1), "the lowest guilty record"),
    check("two bad terms", script("check (x, y) : A & B", "set term 2 zero 1", "set term 1 zero 1"),
          refused(4, 4), "the lowest guilty record: P + 1"),
    check("a bad proposition and a bad term", script("check unit : A & B", "set term 0 zero 1", "set prop 2 count 1"),
          refused(4, 2), "propositions are counted before terms"),
    check("the last record of all", script("check (unit, unit) : A & B", "set term 2 zero 32768"),
          refused(4, 5), "the place is P + 2"),
    check("a bad record that nobody names",
          script("header props 2 terms 1 expected 0", "prop True", "prop False a 1", "term Sorry"),
          refused(4, 1), "test 4 looks at every record, and comes before test 5"),
    check("a bad term that nobody names", script("header props 1 terms 2 expected 0", "prop True", "term Sorry", "term Unit zero 1"),
          refused(4, 2), "test 4 looks at every record, and comes before test 5"),
    filling("a filling's last term", script("filling (x : [A])", "set term 1 zero 1"),
            refused(4, 2), "the place is P + 1"),
    check("the last record of the largest table", script(LARGEST, "set term 511 zero 1"),
          refused(4, 1535), "the place is P + 511"),
]

ROWS = [*KINDS, *unused_in_props(), *unused_in_terms(), *TAGS, *COUNTS, *PLACES]
