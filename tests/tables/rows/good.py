"""Tables that pass."""
from .row import CASE_1, PASSES, check, filling, script

SCRIPTS = [
    ("case 1", CASE_1),
    ("case 3", "check fun h. fun h. h : A -> (B -> B)"),
    ("case 4", "check fun x. fun h. (x, h) : all x:D. (P(x) -> ex y:D. P(y))"),
    ("case 9", "check fun h. let (x, k) = h in (x, k) : (ex x:D. P(x)) -> ex y:D. P(y)"),
    ("case 10", "check fun h. h : (all x:D. P(x)) -> all y:D. P(y)"),
    ("case 12", "check fun g. fun z. ((fun x : @D. g x) z) : (all y:D. all x:D. P(y,x)) -> all z:D. all x:D. P(z,x)"),
    ("case 13, the table", "check fun h. sorry : A -> A"),
]

TERMS = [
    ("Ident", "x"), ("Pair", "(x, y)"), ("ProjectFst", "fst x"), ("ProjectSnd", "snd x"), ("Function", "fun x. y"),
    ("Function of a proposition", "fun x : [A]. y"), ("Function of a datatype", "fun x : @D. y"), ("Application", "x y"),
    ("LetIn", "let (x, y) = z in w"), ("OrLeft", "inl x"), ("OrRight", "inr x"), ("Case", "case x of y. z ; w. v end"),
    ("Abort", "abort x"), ("Unit", "unit"), ("TypeAscription of a proposition", "(x : [A])"),
    ("TypeAscription of a datatype", "(x : @D)"), ("Sorry", "sorry"),
]

PROPS = [
    ("True", "T"), ("False", "F"), ("And", "A & B"), ("Or", "A | B"), ("Impl", "A -> B"), ("ForAll", "all x:D. A"),
    ("Exists", "ex x:D. A"), ("Atom", "A"), ("Atom of 1", "all x:D. P(x)"), ("Atom of 2", "all x:D. P(x,x)"),
    ("Atom of 3", "ex x:D. P(x,x,x)"), ("Atom of 4", "ex x:D. P(x,x,x,x)"),
]

ORDERS = [
    check("a pair's second child stands first",
          script("header props 1 terms 3 expected 0", "prop True", "term Pair child1 2 child2 1", "term Unit", "term Unit"),
          PASSES, "a term's children have larger numbers; nothing says which of them comes first"),
    check("terms level by level",
          script("header props 1 terms 5 expected 0", "prop True", "term Pair child1 1 child2 2", "term OrLeft child1 3",
                 "term OrRight child1 4", "term Unit", "term Unit"),
          PASSES, "a child need not follow its parent at once"),
    check("a conjunction's second child stands first",
          script("header props 3 terms 1 expected 2", "prop True", "prop False", "prop And a 1 b 0", "term Sorry"),
          PASSES, "a proposition's children have smaller numbers; nothing says which of them comes first"),
    check("an annotation above the expected proposition",
          script("header props 2 terms 2 expected 0", "prop True", "prop False", "term TypeAscription tag 1 type 1 child1 1",
                 "term Unit"),
          PASSES, "the expected proposition need not be the last"),
    check("records of two propositions mixed",
          script("header props 6 terms 2 expected 5", "prop True", "prop False", "prop True", "prop False",
                 "prop And a 0 b 2", "prop Or a 1 b 3", "term TypeAscription tag 1 type 4 child1 1", "term Unit"),
          PASSES, "each is named once, by whomever"),
]

NO_LINKS = [
    check("a datatype with the number of a proposition", "check (unit : @#0) : T",
          PASSES, "a datatype is a name: proposition 0 is named by the expected field alone"),
    check("a datatype 65,535", "check fun x : @#65535. x : T", PASSES, "a datatype is any 16-bit number"),
    check("a function's datatype 0", "check fun x : @#0. x : T", PASSES, "a datatype is any 16-bit number"),
    check("a quantifier's names 0", "check sorry : all #0:#0. T", PASSES, "object name and datatype aren't links"),
    check("a quantifier's names 65,535", "check sorry : ex #65535:#65535. T", PASSES, "object name and datatype aren't links"),
    check("a quantifier's names are its own number", "check sorry : all #1:#1. T", PASSES, "object name and datatype aren't links"),
    check("predicate 0", "check sorry : #0", PASSES, "a predicate is any 16-bit number"),
    check("predicate 65,535", "check sorry : #65535", PASSES, "a predicate is any 16-bit number"),
    check("names of terms are 0", "check fun #0. let (#0, #0) = #0 in case #0 of #0. #0 ; #0. #0 end : T",
          PASSES, "a name is any 16-bit number"),
    check("names of terms are 65,535",
          "check fun #65535. let (#65535, #65535) = #65535 in case #65535 of #65535. #65535 ; #65535. #65535 end : T",
          PASSES, "a name is any 16-bit number"),
    check("one name for everything", "check fun #10 : @#10. #10 : all #10:#10. #10(#10)",
          PASSES, "names, predicates and datatypes share their numbers"),
    check("one predicate with two counts", "check sorry : P & all x:D. P(x)", PASSES, "nothing ties a predicate to a count"),
    check("zeros in unused fields name nothing", "check fun x. unit : T & F",
          PASSES, "proposition 0 is named by the And alone, whatever zeros stand elsewhere"),
]

ROWS = [
    *(check(label, text, PASSES, "a case of document 01 that isn't refused 2 to 7") for label, text in SCRIPTS),
    check("case 6", "check abort unit : A", PASSES, "its refusal 11 comes from the rules, after the tests"),
    filling("case 13, filled with h", script("name h 10", "filling h"), PASSES, "a filling may have no propositions"),
    filling("case 13, filled with unit", "filling unit", PASSES, "its refusal 11 comes from the rules, after the tests"),
    *(check("%s in a check" % label, "check %s : T" % text, PASSES, "the kind's own fields only") for label, text in TERMS),
    *(filling("%s in a filling" % label, "filling %s" % text, PASSES, "the kind's own fields only") for label, text in TERMS),
    *(check("%s expected" % label, "check sorry : %s" % text, PASSES, "the kind's own fields only") for label, text in PROPS),
    *(filling("%s in a filling" % label, "filling (x : [%s])" % text, PASSES, "the kind's own fields only")
      for label, text in PROPS),
    *ORDERS,
    *NO_LINKS,
]
