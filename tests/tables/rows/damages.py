"""Small tables with one bit flipped, every bit in turn, and one small table cut off after every byte.

The answers are given field by field: one for every bit of the field, and apart from it those of single bits, by their value."""
from types import MappingProxyType
from typing import Mapping, NamedTuple

from ndt.script import assemble

from .row import CASE_1, PASSES, check, filling, refused, script


class Field(NamedTuple):
    """So many bytes of a record, and what comes of flipping a bit of them."""
    name: str
    width: int
    answer: str
    reason: str
    apart: Mapping = MappingProxyType({})

    def answer_for(self, value):
        return self.apart.get(value, self.answer)


def word(name, answer, reason, *apart):
    return Field(name, 2, answer, reason, *apart)


def byte(name, answer, reason, *apart):
    return Field(name, 1, answer, reason, *apart)


def header(expected_reason):
    """Any other count has another length, so these fields tell nothing about the table."""
    return [
        Field("mark", 4, refused(2, 0), "the mark is fixed"),
        word("version", refused(2, 0), "the version is 1"),
        word("props", refused(3, 0), "another count needs another length"),
        word("terms", refused(3, 0), "another count needs another length"),
        word("expected", refused(5, 0), expected_reason),
        Field("zeros", 4, refused(2, 0), "these bytes are zero"),
    ]


def unused(answer, *names):
    return [word(name, answer, "the field is unused") for name in names]


def parameters(answer, first=1):
    return unused(answer, *("p%d" % n for n in range(first, 5)))


# fun h. h : A -> A, with h 10 and A 11
ATOM_COUNT = "1, 2 and 4 make zeros into parameters that nothing binds; more than 4 is a bad count"
CASE_1_RECORDS = {
    "header": header("0 is named twice, and 3 and more are out of range"),
    "prop 0": [
        byte("kind", refused(4, 0), "5 and 6 have the body 0, and 3 the part 0, itself; the other kinds don't exist",
             {1: refused(5, 0), 2: refused(5, 0), 4: refused(5, 0)}),
        byte("count", refused(4, 0), ATOM_COUNT, {1: refused(7, 2), 2: refused(7, 2), 4: refused(7, 2)}),
        word("a", PASSES, "any predicate will do"),
        *unused(refused(4, 0), "b", "c"), *parameters(refused(4, 0)),
    ],
    "prop 1": [
        byte("kind", refused(4, 1), "5 and 6 have the body 0, and 3 the part 0, which is then named twice; the other kinds don't exist",
             {1: refused(5, 0), 2: refused(5, 0), 4: refused(5, 0)}),
        byte("count", refused(4, 1), ATOM_COUNT, {1: refused(7, 2), 2: refused(7, 2), 4: refused(7, 2)}),
        word("a", PASSES, "any predicate will do"),
        *unused(refused(4, 1), "b", "c"), *parameters(refused(4, 1)),
    ],
    "prop 2": [
        byte("kind", refused(4, 2), "5 and 6 have the body 0 and don't name 1; 0 doesn't use b; the other kinds don't exist",
             {1: refused(5, 1), 2: refused(5, 1)}),
        byte("count", refused(4, 2), "only atoms have parameters"),
        word("a", refused(5, 0), "0 is named no more"),
        word("b", refused(5, 1), "1 is named no more; 0, if b says so, twice", {1: refused(5, 0)}),
        *unused(refused(4, 2), "c"), *parameters(refused(4, 2)),
    ],
    "term 0": [
        byte("kind", refused(4, 3),
             "a LetIn's second child would be the root; Application uses no name, Ident no child, TypeAscription needs a tag; "
             "the other kinds don't exist", {2: refused(5, 3)}),
        byte("tag", refused(4, 3), "1 names proposition 0 again, 2 is the datatype 0, the other tags don't exist",
             {1: refused(5, 0), 2: PASSES}),
        *unused(refused(4, 3), "type"),
        word("name1", PASSES, "any name will do"),
        *unused(refused(4, 3), "name2"),
        word("child1", refused(5, 3), "0 is the root itself, 3 and more are out of range"),
        *unused(refused(4, 3), "child2", "child3", "zero"),
    ],
    "term 1": [
        byte("kind", refused(4, 4), "a Function's body would be the root; 1, 2 and 8 use no name; the other kinds don't exist",
             {4: refused(5, 4)}),
        byte("tag", refused(4, 4), "an Ident has no tag"),
        *unused(refused(4, 4), "type"),
        word("name1", PASSES, "any name will do"),
        *unused(refused(4, 4), "name2", "child1", "child2", "child3", "zero"),
    ],
}

# unit : all x:D. P(x), with x 10, D 11 and P 12
QUANTIFIED = "check unit : all x:D. P(x)"
QUANTIFIED_RECORDS = {
    "header": header("0 is named twice, and 2 and more are out of range"),
    "prop 0": [
        byte("kind", refused(4, 0), "no other kind has parameters"),
        byte("count", refused(4, 0), "with 0 the parameter is unused; 3 makes zeros into parameters that nothing binds; the rest is over 4",
             {2: refused(7, 1)}),
        word("a", PASSES, "any predicate will do"),
        *unused(refused(4, 0), "b", "c"),
        word("p1", refused(7, 1), "nothing binds another name"),
        *parameters(refused(4, 0), first=2),
    ],
    "prop 1": [
        byte("kind", refused(4, 1),
             "an Impl's parts 10 and 11 are out of range, and 0 is named no more; 1 and 7 don't use b; the rest doesn't exist",
             {1: refused(5, 0)}),
        byte("count", refused(4, 1), "only atoms have parameters"),
        word("a", refused(7, 1), "another object name doesn't bind the parameter"),
        word("b", PASSES, "any datatype will do"),
        word("c", refused(5, 0), "0 is named no more"),
        *parameters(refused(4, 1)),
    ],
    "term 0": [
        byte("kind", refused(4, 2), "3, 9 and 10 have children, all of them the root; the other kinds don't exist",
             {1: refused(5, 2), 2: refused(5, 2), 8: refused(5, 2)}),
        byte("tag", refused(4, 2), "a Unit has no tag"),
        *unused(refused(4, 2), "type", "name1", "name2", "child1", "child2", "child3", "zero"),
    ],
}

# The filling (x : [P(x)]), with x 10 and P 11
FILLING = "filling (x : [P(x)])"
FILLING_RECORDS = {
    "header": header("a filling expects 65,535"),
    "prop 0": [
        byte("kind", refused(4, 0), "no other kind has parameters"),
        byte("count", refused(4, 0), "with 0 the parameter is unused; 3 is good, and a filling's names aren't tested; the rest is over 4",
             {2: PASSES}),
        word("a", PASSES, "any predicate will do"),
        *unused(refused(4, 0), "b", "c"),
        word("p1", PASSES, "a filling's names aren't tested"),
        *parameters(refused(4, 0), first=2),
    ],
    "term 0": [
        byte("kind", refused(4, 1), "a Function has the same fields, and the name 0; 8 and 13 have no tag; the other kinds don't exist",
             {8: PASSES}),
        byte("tag", refused(4, 1), "one bit away from 1 there is no tag for an ascription"),
        word("type", refused(5, 0), "the proposition is named no more"),
        *unused(refused(4, 1), "name1", "name2"),
        word("child1", refused(5, 1), "0 is the root itself, 3 and more are out of range"),
        *unused(refused(4, 1), "child2", "child3", "zero"),
    ],
    "term 1": [
        byte("kind", refused(4, 2), "a Function's body would be the root; 1, 2 and 8 use no name; the other kinds don't exist",
             {4: refused(5, 2)}),
        byte("tag", refused(4, 2), "an Ident has no tag"),
        *unused(refused(4, 2), "type"),
        word("name1", PASSES, "any name will do"),
        *unused(refused(4, 2), "name2", "child1", "child2", "child3", "zero"),
    ],
}


def flips(mode, name, table, records):
    """A row for each bit of a table."""
    data, at = assemble(table)[0], 0
    for record, fields in records.items():
        for field in fields:
            for bit in range(8 * field.width):
                place = at + bit // 8
                yield mode("%s, %s, %s, bit %d" % (name, record, field.name, bit),
                           script(table, "set byte %d %d" % (place, data[place] ^ 1 << bit % 8)),
                           field.answer_for(1 << bit), field.reason)
            at += field.width
    assert at == len(data), "every bit has its row"


def beginnings(table):
    """A row for each length short of the whole."""
    size = len(assemble(table)[0])
    for length in range(size):
        answer, reason = (refused(2, 0), "under 16 bytes") if length < 16 else (refused(3, 0), "the length is 16+16P+16T exactly")
        yield check("case 1, its first %d bytes" % length, script(table, "drop %d" % (size - length)), answer, reason)


ROWS = [
    *beginnings(CASE_1),
    *flips(check, "case 1", CASE_1, CASE_1_RECORDS),
    *flips(check, "all x:D. P(x)", QUANTIFIED, QUANTIFIED_RECORDS),
    *flips(filling, "filling (x : [P(x)])", FILLING, FILLING_RECORDS),
]
