"""Refusal 6: heights and depths."""
from .row import PASSES, check, filling, refused, script
from .shapes import wrapped

# Ways to make a proposition one higher; and, 33 high, the number of the lowest record that is too high.
# A chain of quantifiers is numbered upwards. `&` and `|` go to the left: T, T, And, T, And, .. so the 32nd sign is record 64.
# `->` goes to the right: 33 times T, then the signs from the inside out, so the 32nd sign is again record 64.
HIGH = [
    ("ForAll", "all x:D. ", "", 32),
    ("Exists", "ex x:D. ", "", 32),
    ("And to the left", "", " & T", 64),
    ("Or to the left", "", " | T", 64),
    ("Impl to the right", "T -> ", "", 64),
    ("And to the right", "T & (", ")", 64),
    ("Impl to the left", "(", ") -> T", 64),
]

# Ways to make a term one deeper; and, 65 deep, the number of the lowest term that is too deep. Of a kind with one child that is
# the innermost term, number 64. With more children it is the first child of the innermost such kind, which stands at depth 64.
DEEP = [
    ("ProjectFst", "fst ", "", 64),
    ("ProjectSnd", "snd ", "", 64),
    ("Function", "fun x. ", "", 64),
    ("OrLeft", "inl ", "", 64),
    ("OrRight", "inr ", "", 64),
    ("Abort", "abort ", "", 64),
    ("TypeAscription", "(", " : @D)", 64),
    ("Pair to the left", "(", ", unit)", 64),
    ("Pair to the right", "(unit, ", ")", 127),
    ("Application to the left", "", " unit", 64),
    ("Application to the right", "unit (", ")", 127),
    ("LetIn in its head", "let (x, y) = ", " in unit", 64),
    ("LetIn in its body", "let (x, y) = unit in ", "", 127),
    ("Case in its head", "case ", " of x. unit ; y. unit end", 64),
    ("Case in its left arm", "case unit of x. ", " ; y. unit end", 127),
    ("Case in its right arm", "case unit of x. unit ; y. ", " end", 190),
]


def heights():
    for label, before, after, place in HIGH:
        yield check("32 high: " + label, "check sorry : " + wrapped(before, "T", after, 31), PASSES, "32 is the limit")
        yield check("33 high: " + label, "check sorry : " + wrapped(before, "T", after, 32), refused(6, place),
                    "the record that is 33 high; a single node counts 1")


def depths():
    for label, before, after, number in DEEP:
        yield check("64 deep: " + label, "check %s : T" % wrapped(before, "unit", after, 63), PASSES, "64 is the limit")
        yield check("65 deep: " + label, "check %s : T" % wrapped(before, "unit", after, 64), refused(6, 1 + number),
                    "the first term that is 65 deep; its place is P + %d" % number)


def quantified(times):
    return wrapped("all x:D. ", "T", "", times)


def projected(times):
    return wrapped("fst ", "unit", "", times)


CASE_14 = [
    check("case 14, 63 ascriptions", "check %s : T" % wrapped("(", "unit", " : [T])", 63), PASSES, "depth 64 is the limit"),
    check("case 14, 64 ascriptions", "check %s : T" % wrapped("(", "unit", " : [T])", 64), refused(6, 129),
          "P is 65 and the innermost term is number 64"),
]

PLACES = [
    check("34 high", "check sorry : " + quantified(33), refused(6, 32), "both 32 and 33 are too high; 32 is lower"),
    check("66 deep", "check %s : T" % projected(65), refused(6, 65), "both 64 and 65 are too deep; P + 64 is lower"),
    check("an annotation 32 high", "check (unit : [%s]) : T" % quantified(31), PASSES, "32 is the limit for every proposition"),
    check("an annotation 33 high", "check (unit : [%s]) : T" % quantified(32), refused(6, 32), "the limit is for every proposition"),
    check("an annotation and the expected proposition 33 high", "check (unit : [%s]) : %s" % (quantified(32), quantified(32)),
          refused(6, 32), "records 32 and 65 are too high; 32 is lower"),
    check("the expected proposition 33 high, after an annotation", "check (unit : [A & B]) : %s" % quantified(32),
          refused(6, 35), "three records stand before it"),
    check("two propositions 32 high", "check (unit : [%s]) : %s" % (quantified(31), quantified(31)),
          PASSES, "heights of different propositions don't add up"),
    check("two parts 31 high under an And", "check sorry : (%s) & (%s)" % (quantified(30), quantified(30)),
          PASSES, "the And is 32 high: the higher part counts, and not the sum"),
    check("a part 32 high under an And's a", "check sorry : (%s) & T" % quantified(31), refused(6, 33), "the And is 33 high"),
    check("a part 32 high under an And's b", "check sorry : T & (%s)" % quantified(31), refused(6, 33), "the And is 33 high"),
    check("two branches 64 deep", "check (%s, %s) : T" % (projected(62), projected(62)), PASSES, "depths of branches don't add up"),
    check("the second branch 65 deep", "check (unit, %s) : T" % projected(63), refused(6, 66),
          "term 2 is 2 deep, so term 65 is 65 deep; the place is P + 65"),
    check("the first branch 65 deep", "check (%s, unit) : T" % projected(63), refused(6, 65),
          "term 1 is 2 deep, so term 64 is 65 deep; the last term is 2 deep"),
    check("both branches 65 deep", "check (%s, %s) : T" % (projected(63), projected(63)), refused(6, 65), "the lower of the two"),
    check("too high and too deep", "check %s : %s" % (projected(64), quantified(32)), refused(6, 32),
          "propositions are counted before terms"),
    check("a deep term over many propositions", "check %s : %s" % (projected(64), quantified(31)), refused(6, 96),
          "the place is P + 64 with P 32"),
]

# Records out of the assembler's order: two chains in turn, 0 holding 1 and 2, and each n from 1 on holding n + 2.
ORDERS = [
    check("two chains of terms in turn, 64 deep",
          script("header props 1 terms 127 expected 0", "prop True", "term Pair child1 1 child2 2",
                 *("term ProjectFst child1 %d" % (n + 2) for n in range(1, 125)), "term Unit", "term Unit"),
          PASSES, "terms 125 and 126 are 64 deep"),
    check("two chains of terms in turn, 65 deep",
          script("header props 1 terms 128 expected 0", "prop True", "term Pair child1 1 child2 2",
                 *("term ProjectFst child1 %d" % (n + 2) for n in range(1, 126)), "term Unit", "term Unit"),
          refused(6, 128), "terms 1, 3, .. 127: the last is 65 deep, and its place is P + 127"),
    check("two chains of propositions in turn, 33 high",
          script("header props 65 terms 2 expected 64", "prop True", "prop True",
                 *("prop ForAll a 10 b 11 c %d" % (n - 2) for n in range(2, 65)),
                 "term TypeAscription tag 1 type 63 child1 1", "term Unit"),
          refused(6, 64), "records 0, 2, .. 64: the last is 33 high; 1, 3, .. 63 end 32 high"),
]

LONG = [
    check("1,024 high",
          script("header props 1024 terms 1 expected 1023", "prop True",
                 *("prop ForAll a 10 b 11 c %d" % (n - 1) for n in range(1, 1024)), "term Sorry"),
          refused(6, 32), "the lowest of the 992 that are too high"),
    check("512 deep",
          script("header props 1 terms 512 expected 0", "prop True", *("term OrLeft child1 %d" % (n + 1) for n in range(511)), "term Unit"),
          refused(6, 65), "the lowest of the 448 that are too deep"),
    check("two terms 65 deep, the second child lower",
          script("header props 1 terms 66 expected 0", "prop True", *("term OrLeft child1 %d" % (n + 1) for n in range(63)),
                 "term Pair child1 65 child2 64", "term Unit", "term Unit"),
          refused(6, 65), "terms 64 and 65 are too deep, whichever is read first; P + 64 is lower"),
]

FILLINGS = [
    filling("a filling 64 deep", "filling " + projected(63), PASSES, "64 is the limit"),
    filling("a filling 65 deep", "filling " + projected(64), refused(6, 64), "P is 0, so the place is 64"),
    filling("a filling's annotation 32 high", "filling (unit : [%s])" % quantified(31), PASSES, "32 is the limit"),
    filling("a filling's annotation 33 high", "filling (unit : [%s])" % quantified(32), refused(6, 32), "32 is the limit"),
]

ROWS = [*heights(), *depths(), *CASE_14, *PLACES, *ORDERS, *LONG, *FILLINGS]
