"""Filling by document 01, written down as plainly as it can be, for judging the answers of `trace_fill`. The rules are those of tests/scripts/reference.py, and the
tests those of tests/tables/reference.py."""
import importlib.util
import os
from typing import NamedTuple

HERE = os.path.dirname(os.path.abspath(__file__))


def scripts_reference():
    """The rules' reference. (It has this one's name.)"""
    spec = importlib.util.spec_from_file_location("script_rules", os.path.join(HERE, "..", "scripts", "reference.py"))
    module = importlib.util.module_from_spec(spec)
    spec.loader.exec_module(module)
    return module


rules = scripts_reference()
tests = rules.tests


class Hole(NamedTuple):
    """What is known at a Sorry."""
    term: int
    wanted: tuple
    context: list
    serials: int
    made: int


class OldRun(rules.Run):
    """A run that keeps what is known at each goal."""

    def __init__(self, table):
        super().__init__(table)
        self.holes = []

    def check(self, k, wanted, context):
        if self.terms[k].kind == rules.SORRY:
            self.holes.append(Hole(k, wanted, list(context), self.serials, self.made))
        return super().check(k, wanted, context)


def holes(table):
    """What is known at each goal of a table that passes; an exception if its run is refused."""
    run = OldRun(table)
    run.check(0, rules.read(table, table.expected), [])
    return run.holes


# The edited table

def put_word(record, at, value):
    record[at:at + 2] = value.to_bytes(2, "little")


def records(data):
    """The propositions' records and the terms' records."""
    p = tests.word(data, 6)
    every = [bytearray(data[at:at + 16]) for at in range(16, len(data), 16)]
    return every[:p], every[p:]


def moved_prop(record, p):
    """A filling's proposition behind p others."""
    fields = {tests.FORALL: (6,), tests.EXISTS: (6,), tests.AND: (2, 4), tests.OR: (2, 4), tests.IMPL: (2, 4)}.get(record[0], ())
    for at in fields:
        put_word(record, at, tests.word(record, at) + p)
    return record


def moved_term(record, p, t):
    """A filling's term behind p propositions and t terms, its root having no new place."""
    term = tests.TermRecord(record)
    if term.tag == 1:
        put_word(record, 2, term.type + p)
    for i, child in enumerate(term.links()):
        put_word(record, 8 + 2 * i, child + t - 1)
    return record


def edited(old, filling, hole):
    """The old table with the filling in it: the root where the Sorry was, every other record behind the old ones of its sort, and the links after them."""
    props, terms = records(old)
    p, t = len(props), len(terms)
    more_props, more_terms = records(filling)
    props += [moved_prop(record, p) for record in more_props]
    more_terms = [moved_term(record, p, t) for record in more_terms]
    terms[hole] = more_terms[0]
    terms += more_terms[1:]
    head = bytearray(old[:16])
    put_word(head, 6, len(props))
    put_word(head, 8, len(terms))
    return bytes(head) + b"".join(props + terms)


# The answer

def refused(said, which):
    return [said, "where " + which]


def answer(old, goal, filling):
    """The lines that `trace_fill` prints of a filling, without its number."""
    lines = rules.answer(old)
    if lines[0].startswith("refused"):
        return refused(lines[0], "old")
    tested = tests.answer(filling, True)
    if tested != "passes":
        return refused(tested, "filling")
    known = holes(tests.Table(old))
    if goal >= len(known):
        return refused("refused 31 0", "old")
    data = edited(old, filling, known[goal].term)
    if not tests.test3(data):
        return refused("refused 3 0", "edited")
    table = tests.Table(data)
    guilty = tests.guilty6(table, False)
    if guilty:
        return refused("refused 6 %d" % min(guilty), "edited")
    return filled(table, known[goal])


def filled(table, hole):
    """The filling's run: it starts with what was known at the hole."""
    run = rules.Run(table)
    run.serials, run.made = hole.serials, hole.made
    try:
        lines = list(run.check(hole.term, hole.wanted, hole.context).lines())
    except rules.Refused as refusal:
        return refused(str(refusal), "edited")
    return (["accepted %d %d" % (len(lines), len(run.goals))] + lines
            + ["goal %d %d | %s" % (k, length, rules.text(p)) for k, length, p in run.goals]
            + ["counts serials %d made %d" % (run.serials - hole.serials, run.made)])
