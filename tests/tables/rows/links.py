"""Refusal 5: links, namings and the expected field."""
from .row import CASE_1, PASSES, check, filling, refused, script
from .shapes import FULL_PROP, LARGEST

# Proposition 0 is an annotation's and 1 the expected one, so 1 may be spoilt and still be named.
TWO_PROPS = "check (unit : [T]) : T"
# Term 0 holds 1, which holds 2 and 3; P is 1.
FOUR_TERMS = "check inl (unit, unit) : T"

# Bad links for proposition 1 of 2.
BAD_LINKS = [
    (1, "a link to itself goes the wrong way"),
    (2, "P is out of range"),
    (256, "out of range; its low byte alone would not be"),
    (65535, "out of range"),
]

PROP_LINKS = [
    *(check("an And's %s is %d" % (field, link),
            script("header props 2 terms 1 expected 1", "prop True", "prop And", "set prop 1 %s %d" % (field, link), "term Sorry"),
            refused(5, 1), reason)
      for field in ("a", "b") for link, reason in BAD_LINKS),
    *(check("%s with the body %d" % (kind, link), script(TWO_PROPS, "set prop 1 kind %s c %d" % (kind, link)), refused(5, 1), reason)
      for kind in ("ForAll", "Exists") for link, reason in BAD_LINKS),
    *(check("%s with both links out of range" % kind, script(TWO_PROPS, "set prop 1 kind %s a 2 b 2" % kind),
            refused(5, 1), "the place is the links' holder") for kind in ("And", "Or", "Impl")),
    *(check("a link the wrong way from %s" % field,
            script("header props 3 terms 1 expected 2", "prop True", "prop Impl a 0 b 0", "set prop 1 %s 2" % field,
                   "prop ForAll a 10 b 11 c 1", "term Sorry"),
            refused(5, 1), "a proposition's links go to smaller numbers; 2 is named twice too, but 1 is lower")
      for field in ("a", "b")),
    check("a quantifier's body the wrong way",
          script("header props 4 terms 1 expected 3", "prop True", "prop ForAll a 10 b 11 c 2", "prop False", "prop And a 0 b 1",
                 "term Sorry"),
          refused(5, 1), "1 links to 2, which is named by nobody else and so isn't guilty"),
    check("the lowest proposition links to itself", script("check sorry : A", "set prop 0 kind ForAll"),
          refused(5, 0), "nothing is smaller than 0"),
    check("a ring of two propositions",
          script("header props 3 terms 1 expected 2", "prop ForAll a 10 b 11 c 1", "prop Exists a 10 b 11 c 0", "prop True", "term Sorry"),
          refused(5, 0), "each is named once, but 0 links to 1"),
    check("a proposition that only itself names",
          script("header props 2 terms 1 expected 0", "prop True", "prop ForAll a 10 b 11 c 1", "term Sorry"),
          refused(5, 1), "named once, by a link of the wrong way"),
    check("the last link of the largest table", script(LARGEST, "set prop 1023 c 1024"),
          refused(5, 1022), "1,022 is named no more, and is lower than the holder 1,023"),
]

PROP_NAMINGS = [
    check("a proposition named twice by one record",
          script("header props 2 terms 1 expected 1", "prop True", "prop And a 0 b 0", "term Sorry"), refused(5, 0), "named twice"),
    check("a proposition named twice by two records",
          script("header props 4 terms 1 expected 3", "prop True", "prop ForAll a 10 b 11 c 0", "prop Exists a 10 b 11 c 0",
                 "prop And a 1 b 2", "term Sorry"),
          refused(5, 0), "named twice"),
    check("one child in place of the other", script("check sorry : A & B", "set prop 2 a 1"), refused(5, 0),
          "1 is named twice and 0 by nobody; 0 is lower"),
    check("the other child in place of the one", script("check sorry : A & B", "set prop 2 b 0"), refused(5, 0),
          "0 is named twice and 1 by nobody; 0 is lower"),
    check("named by a record and by the expected field",
          script("header props 3 terms 1 expected 1", "prop True", "prop False", "prop And a 0 b 1", "term Sorry"),
          refused(5, 1), "1 is named twice and 2 by nobody; 1 is lower"),
    check("named by an annotation and by the expected field", script(TWO_PROPS, "set term 0 type 1"),
          refused(5, 0), "1 is named twice and 0 by nobody; 0 is lower"),
    check("an annotation and the expected field name the only proposition",
          script("check (unit : @#0) : T", "set term 0 tag 1"), refused(5, 0), "named twice"),
    check("named by an annotation and by a record", script("check (unit : [A & B]) : T", "set term 0 type 1"),
          refused(5, 1), "1 is named twice and 2 by nobody; 1 is lower"),
    check("named by two annotations", script("check ((unit : [T]) : [T]) : T", "set term 1 type 0"),
          refused(5, 0), "0 is named twice and 1 by nobody; 0 is lower"),
    check("three namings", script("header props 2 terms 2 expected 1", "prop True", "prop And a 0 b 0",
                                  "term TypeAscription tag 1 type 0 child1 1", "term Unit"),
          refused(5, 0), "named three times"),
    check("the lowest proposition named by nobody",
          script("header props 2 terms 1 expected 1", "prop True", "prop True", "term Sorry"), refused(5, 0), "not named"),
    check("the highest proposition named by nobody",
          script("header props 2 terms 1 expected 0", "prop True", "prop True", "term Sorry"), refused(5, 1), "not named"),
    check("a whole proposition to spare",
          script("header props 4 terms 1 expected 0", "prop True", "prop True", "prop False", "prop And a 1 b 2", "term Sorry"),
          refused(5, 3), "its top alone isn't named"),
    check("two propositions named by nobody",
          script("header props 3 terms 1 expected 0", "prop True", "prop True", "prop True", "term Sorry"),
          refused(5, 1), "the lowest guilty record"),
    check("named once, by the expected field", "check unit : T", PASSES, "the expected field names its proposition"),
    check("named once, by an annotation", TWO_PROPS, PASSES, "an annotation names its proposition"),
    filling("a filling's proposition named by nobody",
            script("header props 2 terms 2 expected 65535", "prop True", "prop True",
                   "term TypeAscription tag 1 type 0 child1 1", "term Unit"),
            refused(5, 1), "a filling has no expected field to name it"),
    filling("a filling's proposition named twice",
            script("filling ((unit : [T]) : [T & T])", "set term 1 type 1"), refused(5, 1),
            "1 is named twice and 3 by nobody; 1 is lower"),
    check("the highest of 1,024 named by nobody", script("check sorry : %s" % FULL_PROP, "set header expected 1022"),
          refused(5, 1022), "1,022 is named twice and 1,023 by nobody; 1,022 is lower"),
]

ANNOTATIONS = [
    *(check("%s of proposition %d" % (kind, link), script("check %s : T" % text, "set term 0 tag 1 type %d" % link),
            refused(5, 1), "out of range; the holder's place is P + 0")
      for kind, text in (("an ascription", "(x : @D)"), ("a function", "fun x : @D. x"))
      for link in (1, 256, 65535)),
    check("an annotation out of range and its proposition left alone", script("check (unit : [T]) : F", "set term 0 type 2"),
          refused(5, 0), "proposition 0 is named no more, and is lower than the holder 2"),
    check("an annotation deep in the term", script("check fst snd (x : @D) : T", "set term 2 tag 1 type 9"),
          refused(5, 3), "the holder's place is P + 2"),
    filling("a filling's annotation with no propositions", script("filling (x : @D)", "set term 0 tag 1 type 0"),
            refused(5, 0), "out of range; P is 0"),
    filling("a filling's function's annotation out of range", script("filling inl (fun x : @D. x)", "set term 1 tag 1 type 0"),
            refused(5, 1), "out of range; P is 0, so the holder's place is 1"),
]

TERM_LINKS = [
    *(check("a pair's first child is %d" % link, script(FOUR_TERMS, "set term 1 child1 %d" % link), refused(5, 2), reason)
      for link, reason in ((0, "the root is named, and the fault is its holder's; 2 is named by nobody, but higher"),
                           (1, "a link to itself goes the wrong way"), (4, "T is out of range"),
                           (258, "out of range; its low byte alone would not be"), (65535, "out of range"))),
    *(check("a pair's second child is %d" % link, script(FOUR_TERMS, "set term 1 child2 %d" % link), refused(5, 2), reason)
      for link, reason in ((0, "the root is named, and the fault is its holder's"), (1, "a link to itself goes the wrong way"),
                           (4, "T is out of range"), (65535, "out of range"))),
    *(check("a case's child %d out of range" % child,
            script("check inl case x of a. unit ; b. unit end : T", "set term 1 child%d 5" % child),
            refused(5, 2), "T is out of range; the holder's place is P + 1") for child in (1, 2, 3)),
    *(check("a case's child %d is the case" % child,
            script("check inl case x of a. unit ; b. unit end : T", "set term 1 child%d 1" % child),
            refused(5, 2), "a link to itself goes the wrong way") for child in (1, 2, 3)),
    *(check("%s out of range" % text, script("check inl %s : T" % text, "set term 1 child1 65535"),
            refused(5, 2), "the holder's place is P + 1")
      for text in ("fst x", "snd x", "(fun x. x)", "inl x", "inr x", "abort x", "(x : @D)")),
    *(check("%s, its child %d out of range" % (text, child), script("check inl (%s) : T" % text, "set term 1 child%d 4" % child),
            refused(5, 2), "T is out of range; the holder's place is P + 1")
      for text in ("x y", "let (a, b) = x in y") for child in (1, 2)),
    check("the root links to itself",
          script("header props 2 terms 1 expected 1", "prop True", "prop ForAll a 10 b 11", "term ProjectFst"),
          refused(5, 2), "a link to 0 goes the wrong way from everywhere; the holder is term 0"),
    check("a child links to the root",
          script("header props 1 terms 2 expected 0", "prop True", "term ProjectFst child1 1", "term ProjectFst child1 0"),
          refused(5, 2), "the holder is guilty and not the root"),
    check("a link the wrong way is all that names a term",
          script("header props 1 terms 3 expected 0", "prop True", "term ProjectFst child1 2", "term Unit", "term ProjectFst child1 1"),
          refused(5, 3), "term 1 is named once, by term 2's link: only the holder is guilty"),
    check("a link the wrong way names a term again",
          script("header props 1 terms 3 expected 0", "prop True", "term ProjectFst child1 1", "term ProjectFst child1 2",
                 "term ProjectFst child1 1"),
          refused(5, 2), "term 1 is named by 0 and by 2, and is lower than the holder 2"),
    check("a ring of two terms",
          script("header props 1 terms 3 expected 0", "prop True", "term Sorry", "term OrLeft child1 2", "term OrRight child1 1"),
          refused(5, 3), "each is named once, but 2 links to 1"),
    check("a term that only itself names",
          script("header props 1 terms 2 expected 0", "prop True", "term Sorry", "term OrLeft child1 1"),
          refused(5, 2), "named once, by a link of the wrong way"),
    check("a good link beside a bad one",
          script("header props 1 terms 3 expected 0", "prop True", "term OrLeft child1 1", "term Pair child1 9 child2 2", "term Unit"),
          refused(5, 2), "term 2 is named by the holder all the same"),
    check("the last term of the largest table links on", script(LARGEST, "set term 511 kind ProjectFst child1 512"),
          refused(5, 1535), "T is out of range; the place is P + 511"),
]

TERM_NAMINGS = [
    check("a term named twice by one record",
          script("header props 1 terms 2 expected 0", "prop True", "term Pair child1 1 child2 1", "term Unit"),
          refused(5, 2), "named twice; the place is P + 1"),
    check("a term named twice by two records",
          script("header props 1 terms 4 expected 0", "prop True", "term Pair child1 1 child2 2", "term OrLeft child1 3",
                 "term OrRight child1 3", "term Unit"),
          refused(5, 4), "named twice; the place is P + 3"),
    check("the second child in place of the first", script("check (unit, unit) : T", "set term 0 child1 2"),
          refused(5, 2), "2 is named twice and 1 by nobody; 1 is lower"),
    check("the first child in place of the second", script("check (unit, unit) : T", "set term 0 child2 1"),
          refused(5, 2), "1 is named twice and 2 by nobody; 1 is lower"),
    check("a case names one arm twice", script("check case x of a. unit ; b. unit end : T", "set term 0 child3 2"),
          refused(5, 3), "2 is named twice; the place is P + 2"),
    check("the last term named by nobody",
          script("header props 1 terms 2 expected 0", "prop True", "term Sorry", "term Sorry"), refused(5, 2), "not named"),
    check("a term in the middle named by nobody",
          script("header props 1 terms 3 expected 0", "prop True", "term OrLeft child1 2", "term Unit", "term Unit"),
          refused(5, 2), "not named"),
    check("a whole term to spare",
          script("header props 1 terms 3 expected 0", "prop True", "term Sorry", "term OrLeft child1 2", "term Unit"),
          refused(5, 2), "its top alone isn't named"),
    check("the root named by nobody", "check unit : T", PASSES, "the root is never named"),
    filling("a filling's term named twice", script("filling (unit, unit)", "set term 0 child2 1"),
            refused(5, 1), "P is 0, so the place is 1"),
    filling("a filling's term named by nobody",
            script("header terms 2 expected 65535", "term Sorry", "term Sorry"), refused(5, 1), "P is 0, so the place is 1"),
    filling("a filling's child links to its root",
            script("header terms 2 expected 65535", "term OrLeft child1 1", "term OrRight child1 0"),
            refused(5, 1), "the holder is guilty and not the root"),
]



def heap(size):
    """The links of a full binary tree: the two children of each node, or `size` where it has none."""
    return [[min(child, size) for child in (2 * n + 1, 2 * n + 2)] for n in range(size)]


# 256 records with two links each: 255 links go to the 255 below the top, and 257 to one record more. A count of one byte would
# come round to 1.
MANY_NAMINGS = [
    check("a proposition named 257 times",
          script("header props 257 terms 1 expected 256", "prop True",
                 *("prop And a %d b %d" % (256 - left, 256 - right) for left, right in reversed(heap(256))), "term Sorry"),
          refused(5, 0), "named 257 times, and all others once"),
    check("a term named 257 times",
          script("header props 1 terms 257 expected 0", "prop True",
                 *("term Pair child1 %d child2 %d" % (left, right) for left, right in heap(256)), "term Unit"),
          refused(5, 257), "named 257 times, and all others once; the place is P + 256"),
]

EXPECTED = [
    *(check("expected %d of 2" % expected, script(TWO_PROPS, "set header expected %d" % expected),
            refused(5, 0), reason)
      for expected, reason in ((2, "P is out of range; the place is 0, though 1 is the record named no more"),
                               (256, "out of range"), (257, "out of range; its low byte alone would not be"), (65534, "out of range"),
                               (65535, "65,535 is for fillings"))),
    check("expected 0 of none", script("filling sorry", "set header expected 0"), refused(5, 0), "nothing is in range"),
    check("expected 65,535 of none", "filling sorry", refused(5, 0), "65,535 is for fillings"),
    check("a filling tested as a check", "filling (unit : [T])", refused(5, 0), "65,535 is for fillings"),
    check("a wrong expected field and a term named by nobody",
          script("header props 1 terms 2 expected 1", "prop True", "term Sorry", "term Sorry"),
          refused(5, 0), "place 0 is the lowest there is"),
    filling("a check tested as a filling", TWO_PROPS, refused(5, 0), "a filling's expected field is 65,535"),
    filling("case 1 tested as a filling", CASE_1, refused(5, 0), "a filling's expected field is 65,535"),
    *(filling("a filling that expects %d" % expected, script("filling (unit : [T])", "set header expected %d" % expected),
              refused(5, 0), "a filling's expected field is 65,535")
      for expected in (0, 1, 255, 32767, 65279, 65534)),
    filling("a filling without propositions that expects 0", script("filling sorry", "set header expected 0"),
            refused(5, 0), "a filling's expected field is 65,535"),
    filling("a filling that expects 65,535", "filling (unit : [T])", PASSES, "and has no other way to be named"),
]

LOWEST = [
    check("a holder below a record not named",
          script("header props 4 terms 1 expected 3", "prop True", "prop And a 0 b 7", "prop True", "prop ForAll a 10 b 11 c 1",
                 "term Sorry"),
          refused(5, 1), "1 has a link out of range, 2 is named by nobody"),
    check("a record not named below a holder",
          script("header props 4 terms 1 expected 3", "prop True", "prop True", "prop ForAll a 10 b 11 c 9", "prop And a 0 b 2",
                 "term Sorry"),
          refused(5, 1), "1 is named by nobody, 2 has a link out of range"),
    check("a proposition not named and a term's bad link",
          script("header props 2 terms 1 expected 0", "prop True", "prop True", "term OrLeft"),
          refused(5, 1), "propositions are counted before terms"),
    check("a term's bad link below a term named twice",
          script("header props 1 terms 4 expected 0", "prop True", "term Pair child1 1 child2 2", "term Pair child1 3 child2 3",
                 "term OrLeft child1 2", "term Unit"),
          refused(5, 3), "terms 2 (its link) and 3 (named twice) are guilty, and term 2, named by 0 and itself, is the lower"),
    check("a term not named below a term's bad link",
          script("header props 1 terms 4 expected 0", "prop True", "term OrLeft child1 2", "term Unit", "term OrLeft child1 3",
                 "term OrLeft child1 9"),
          refused(5, 2), "term 1 is named by nobody, term 3 has a link out of range"),
]

ROWS = [*PROP_LINKS, *PROP_NAMINGS, *ANNOTATIONS, *TERM_LINKS, *TERM_NAMINGS, *MANY_NAMINGS, *EXPECTED, *LOWEST]
