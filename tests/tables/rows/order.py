"""Tables that more than one test would refuse: the first test in order answers, wherever its record stands."""
from .row import CASE_1, check, filling, refused, script
from .shapes import pairs, wrapped

HIGH = wrapped("all x:D. ", "T", "", 32)
DEEP = wrapped("fst ", "unit", "", 64)

ROWS = [
    check("2 before 3: counts", script(CASE_1, "set header version 2 props 9 terms 0"), refused(2, 0), "version, then counts"),
    check("2 before 3: length", script(CASE_1, "set byte 12 1", "drop 1"), refused(2, 0), "zero bytes, then length"),
    check("2 before 4", script(CASE_1, "set byte 3 1", "set prop 0 kind 99"), refused(2, 0), "mark, then records"),
    check("2 before 5", script(CASE_1, "set byte 0 0", "set header expected 9"), refused(2, 0), "mark, then the expected field"),
    check("2 before 6", script("check %s : T" % DEEP, "set header version 0"), refused(2, 0), "version, then depth"),
    check("2 before 7", script("check sorry : P(x)", "set header version 0"), refused(2, 0), "version, then names"),
    check("3 before 4: count", script("check %s : T" % pairs(257), "set prop 0 kind 99"), refused(3, 0), "513 terms, then kinds"),
    check("3 before 4: length", script(CASE_1, "set prop 0 kind 99", "bytes 0"), refused(3, 0), "length, then kinds"),
    check("3 before 5", script(CASE_1, "set header terms 0 expected 9"), refused(3, 0), "counts, then the expected field"),
    check("3 before 6", script("check %s : T" % DEEP, "drop 1"), refused(3, 0), "length, then depth"),
    check("3 before 7", script("check sorry : P(x)", "drop 16"), refused(3, 0), "length, then names"),
    check("4 high before 5 low", script(CASE_1, "set prop 0 kind ForAll", "set term 1 zero 1"), refused(4, 4),
          "term 1 has an unused field; proposition 0, a link to itself, comes later"),
    check("4 before 5: the expected field", script(CASE_1, "set header expected 65535", "set term 1 tag 1"), refused(4, 4),
          "a bad tag, then the expected field"),
    check("4 before 5: in one record", script("check inl (unit, unit) : T", "set term 1 child1 9 child3 9"), refused(4, 2),
          "an unused field, then a link out of range"),
    check("4 low before 5 high", script(CASE_1, "set prop 1 c 1", "set term 0 child1 9"), refused(4, 1), "an unused field first"),
    check("4 before 6", script("check %s : T" % DEEP, "set term 64 zero 1"), refused(4, 65), "an unused field, then depth"),
    check("4 high before 6 low", script("check unit : %s" % HIGH, "set term 0 zero 1"), refused(4, 33), "an unused field, then height"),
    check("4 high before 7 low", script("check sorry : P(x)", "set term 0 zero 1"), refused(4, 1), "an unused field, then names"),
    check("5 high before 6 low", script("check (unit, unit) : %s" % HIGH, "set term 0 child2 1"), refused(5, 34),
          "term 1 is named twice; record 32 is too high, but that is looked at later"),
    check("5 before 6: the expected field", script("check unit : %s" % HIGH, "set header expected 33"), refused(5, 0),
          "the expected field, then height"),
    check("5 high before 6 low among terms", script("check (unit, %s) : T" % DEEP, "set term 66 kind ProjectFst child1 67"),
          refused(5, 67), "term 66 links out of range; term 65 is too deep, but that is looked at later"),
    check("5 high before 7 low", script("check (unit, unit) : P(x)", "set term 0 child2 1"), refused(5, 2), "namings, then names"),
    check("6 high before 7 low", "check %s : P(x)" % DEEP, refused(6, 65), "depth, then names"),
    check("6 before 7 in one proposition", "check sorry : %s" % wrapped("all x:D. ", "P(y)", "", 32), refused(6, 32), "height, then names"),
    check("4, 5, 6 and 7", script("check %s : P(x)" % DEEP, "set term 0 child1 0", "set term 64 zero 1"), refused(4, 65),
          "the first of four"),
    check("5, 6 and 7", script("check %s : P(x)" % DEEP, "set term 64 kind ProjectFst child1 64"), refused(5, 65),
          "term 64 links to itself; it is too deep as well"),
    filling("2 before 5, as a filling", script(CASE_1, "set header version 2"), refused(2, 0), "version, then the expected field"),
    filling("3 before 5, as a filling", script(CASE_1, "drop 1"), refused(3, 0), "length, then the expected field"),
    filling("4 before 5, as a filling", script(CASE_1, "set term 1 zero 1"), refused(4, 4), "an unused field, then the expected field"),
    filling("5 before 6, as a filling", "check %s : T" % DEEP, refused(5, 0), "the expected field, then depth"),
    filling("5 and no 7, as a filling", "check sorry : P(x)", refused(5, 0), "the expected field, and names never"),
]
