#!/usr/bin/env python3
"""Tests of the assembler, the disassembler, the tables of words and what pages point to."""
import glob
import os
import random
import re
import subprocess
import sys
import tempfile
import unittest

HERE = os.path.dirname(os.path.abspath(__file__))
TOP = os.path.join(HERE, "..")
sys.path[:0] = [HERE, os.path.join(HERE, "..", "tests", "tables")]

import vocabulary  # noqa: E402
from ndt import layout  # noqa: E402
from ndt.build import build  # noqa: E402
from ndt.notation import NotationError  # noqa: E402
from ndt.oddities import Oddities  # noqa: E402
from ndt.script import assemble  # noqa: E402
from ndt.show import prop_at, show, term_at  # noqa: E402
from ndt.trees import Prop, Term  # noqa: E402
from reference import answer  # noqa: E402
from rows import ROWS  # noqa: E402


def table_of(script):
    return assemble(script)[0]


def meaning(data):
    """The term and the proposition that a well-formed table stands for."""
    parts = layout.cut(data)
    expected = parts.header["expected"]
    return term_at(parts, 0), None if expected == layout.NONE else prop_at(parts, expected)


def is_filling(data):
    return len(data) >= layout.SIZE and layout.cut(data).header["expected"] == layout.NONE


def well_formed(data):
    """Do tests 2 to 6 pass, with the expected field telling checks from fillings?"""
    return answer(data, is_filling(data)).split()[:2] in (["passes"], ["refused", "7"])


class Wild:
    """Random propositions, terms and tables, the same ones each time."""

    def __init__(self, seed):
        self.random = random.Random(seed)

    def names(self, count):
        return tuple(self.random.choice((0, 1, 10, 11, 12, 300, 65535)) for _ in range(count))

    def prop(self, size):
        kind = self.random.choice(layout.PROP_KINDS if size > 1 else [k for k in layout.PROP_KINDS if not k.links])
        count = len(kind.names) + (self.random.randrange(5) if kind.word == "Atom" else 0)
        return Prop(kind.word, self.names(count), tuple(self.prop(size // 2) for _ in kind.links))

    def term(self, size):
        kind = self.random.choice(layout.TERM_KINDS if size > 1 else [k for k in layout.TERM_KINDS if not k.links])
        tag = self.random.choice(layout.TAGS.get(kind.word, (layout.NO_TYPE,)))
        annotation = {layout.NO_TYPE: None, layout.PROP_TYPE: self.prop(size // 4), layout.DATA_TYPE: self.names(1)[0]}[tag]
        return Term(kind.word, self.names(len(kind.names)), tuple(self.term(size // 2) for _ in kind.links), annotation)

    def table(self, size):
        term = self.term(size)
        head, props, terms = build(term, self.random.choice((None, self.prop(size))))
        return b"".join([head, *props, *terms])

    def damaged(self, data):
        """A table with a few of its bytes changed, or its end."""
        data = bytearray(data)
        for _ in range(self.random.randrange(1, 4)):
            data[self.random.randrange(len(data))] = self.random.choice((0, 1, 2, 3, 5, 9, 255, self.random.randrange(256)))
        return bytes(data[:len(data) - self.random.choice((0, 0, 0, 0, 1, 16))])


class RoundTrips(unittest.TestCase):
    def check_round_trip(self, data):
        self.assertEqual(table_of(show(data, records=True)), data)
        again = table_of(show(data))
        if well_formed(data):
            self.assertEqual(meaning(again), meaning(data))
            self.assertEqual(table_of(show(again)), again)
        else:
            self.assertEqual(again, data)

    def test_rows(self):
        for row in ROWS:
            with self.subTest(row.label):
                self.check_round_trip(table_of(row.script))

    def test_random_tables(self):
        wild = Wild(1)
        for size in [1, 2, 4, 8, 16, 32] * 50:
            data = wild.table(size)
            self.check_round_trip(data)
            # The assembler's own order comes back to the byte.
            self.assertEqual(table_of(show(data)), data)

    def test_damaged_tables(self):
        wild = Wild(2)
        for size in [1, 4, 16] * 300:
            self.check_round_trip(wild.damaged(wild.table(size)))

    def test_random_bytes(self):
        wild = Wild(3)
        for length in list(range(130)) * 5:
            data = wild.random.randbytes(length)
            self.check_round_trip(data)
            self.check_round_trip((layout.header(props=length % 5, terms=length % 7, expected=length % 3) + data)[:length])


class Oddness(unittest.TestCase):
    def check_oddness(self, data):
        """A table has something odd exactly when one of the tests 2 to 6 refuses it."""
        odd = len(data) < layout.SIZE or bool(Oddities(data).remarks)
        self.assertEqual(odd, not well_formed(data), show(data))

    def test_rows(self):
        for row in ROWS:
            with self.subTest(row.label):
                self.check_oddness(table_of(row.script))

    def test_damaged_tables(self):
        wild = Wild(4)
        for size in [1, 4, 16] * 300:
            self.check_oddness(wild.damaged(wild.table(size)))

    def test_remarks_stand_beside_their_record(self):
        text = show(table_of("check fun h. h : A -> A\nset term 1 kind 99\nset prop 0 c 1"))
        odd = [line.split() for line in text.splitlines() if "ODD" in line]
        self.assertEqual([line[0:2] for line in odd], [["prop", "Atom"], ["term", "99"]])


class Notation(unittest.TestCase):
    def test_case_1_to_the_byte(self):
        data, numbers = assemble("check fun h. h : A -> A")
        self.assertEqual(numbers, {"h": 10, "A": 11})
        self.assertEqual(data.hex(" ", 16).split(), [
            "4e445400010003000200020000000000",
            "07000b00000000000000000000000000",
            "07000b00000000000000000000000000",
            "04000000010000000000000000000000",
            "040000000a0000000100000000000000",
            "000000000a0000000000000000000000",
        ])

    def test_signs_and_brackets(self):
        for text, same in (
                ("A -> B -> C", "A -> (B -> C)"),
                ("A & B & C", "(A & B) & C"),
                ("A | B | C", "(A | B) | C"),
                ("A & B | C & A -> B", "((A & B) | (C & A)) -> B"),
                ("A & all x:B. A -> C", "A & (all x:B. (A -> C))")):
            self.assertEqual(table_of("check unit : " + text), table_of("check unit : " + same))
        for text, same in (
                ("f x y", "(f x) y"),
                ("fst f x", "(fst f) x"),
                ("fst snd f", "fst (snd f)"),
                ("f fst x", "f (fst x)"),
                ("fun f. f x", "fun f. (f x)"),
                ("let (x, y) = f x in x y", "let (x, y) = (f x) in (x y)"),
                ("(fun f. f : @D)", "((fun f. f) : @D)")):
            self.assertEqual(table_of("filling " + text), table_of("filling " + same))

    def test_numbers_written_out_are_left_out(self):
        self.assertEqual(assemble("check fun x. #10 : y -> #12")[1], {"x": 11, "y": 13})

    def test_names_settled_before(self):
        self.assertEqual(assemble("name x 10\nname y 40\nfilling (x, (y, z))")[1], {"x": 10, "y": 40, "z": 11})

    def test_statements_go_on_over_indented_lines(self):
        self.assertEqual(table_of("check fun h. -- a comment\n  h\n\n  : A\n    -> A\n"), table_of("check fun h. h : A -> A"))

    def test_statements_that_forge(self):
        good = table_of("check unit : T")
        self.assertEqual(table_of("header props 1 terms 1\nprop True\nterm Unit"), good)
        self.assertEqual(table_of("header props 1 terms 1\nprop 0\nterm 11"), good)
        self.assertEqual(table_of("check unit : T\nbytes 1 0x2\ndrop 2"), good)
        self.assertEqual(table_of("check unit : T\nset byte 5 1")[5], 1)
        self.assertEqual(table_of("check unit : T\nset header version 0x0203")[4:6], b"\3\2")
        self.assertEqual(table_of("check unit : T\nset prop 0 kind Atom p4 258")[16:32], bytes([7] + 13 * [0] + [2, 1]))
        self.assertEqual(table_of("check unit : T\nset term 0 kind 200 zero 1")[32:48], bytes([200] + 13 * [0] + [1, 0]))

    def test_mistakes_are_placed(self):
        for script, where in (
                ("check fun h h : A", "line 1, column 13: expected '.', found 'h'"),
                ("check h :\n  A ->", "line 2, column 7: expected a proposition, found the end of the statement"),
                ("check h : A )", "line 1, column 13: expected the end of the statement, found ')'"),
                ("check h : A % B", "line 1, column 13: '%' has no meaning here"),
                ("check fun : A", "line 1, column 11: expected a name, found ':'"),
                ("check fun in. x : A", "line 1, column 11: expected a name, found 'in'"),
                ("check (x : D) : A", "line 1, column 12: expected a type, '@' or '[', found 'D'"),
                ("check x : P(a,b,c,d,e)", "line 1, column 12: an atom has at most 4 parameters"),
                ("check #65536 : A", "line 1, column 7: a name's number is at most 65535"),
                ("  check x : A", "line 1, column 3: the first statement must not be indented"),
                ("check x : A\ncheck x : A", "line 2, column 1: a whole table must come first"),
                ("check x : A\nset prop 1 a 0", "line 2, column 5: no prop 1 is written so far"),
                ("check x : A\ndrop 1\nset term 0 zero 0", "line 3, column 5: no term 0 is written so far"),
                ("check x : A\nset byte 48 0", "line 2, column 5: no byte 48 is written so far"),
                ("check x : A\nset term 0 a 0", "line 2, column 12: expected a field (kind, tag, type, "),
                ("check x : A\nset term 0 tag 256", "line 2, column 16: expected a number up to 255, found '256'"),
                ("check x : A\nset rest 0", "line 2, column 5: expected 'header', 'prop', 'term' or 'byte', found 'rest'"),
                ("prop Foo", "line 1, column 6: expected a number or a kind (True, "),
                ("bytes 256", "line 1, column 7: expected a number up to 255, found '256'"),
                ("drop 1", "line 1, column 6: expected a number up to 0, found '1'"),
                ("name x 10\nname y 10", "line 2, column 6: x already has the number 10"),
                ("name x 10\nname x 11", "line 2, column 6: x already has the number 10"),
                ("name #3 10", "line 1, column 6: expected the spelling of a name, found '#3'"),
                ("table x", "line 1, column 1: expected a statement (check, "),
                ("check %sx%s : A" % ("(" * 9999, ")" * 9999), "line 1, column 1: nested too deeply to be read"),
                ("check x%s : A" % (" x" * 9999), "line 1, column 1: nested too deeply to be read")):
            with self.subTest(script[:40]), self.assertRaises(NotationError) as caught:
                table_of(script)
            self.assertTrue(str(caught.exception).startswith(where), caught.exception)


class Programs(unittest.TestCase):
    def run_tool(self, name, *arguments, **options):
        return subprocess.run([sys.executable, os.path.join(HERE, name), *arguments], capture_output=True, **options)

    def test_there_and_back(self):
        with tempfile.TemporaryDirectory() as folder:
            table = os.path.join(folder, "table")
            written = self.run_tool("asm", "-o", table, input=b"check fun h. h : A -> A")
            self.assertEqual((written.returncode, written.stderr), (0, b"name h 10\nname A 11\n"))
            shown = self.run_tool("dis", table)
            self.assertEqual((shown.returncode, shown.stdout), (0, b"check fun #10. #10\n    : #11 -> #11\n"))

    def test_a_mistake_writes_nothing(self):
        with tempfile.TemporaryDirectory() as folder:
            table = os.path.join(folder, "table")
            written = self.run_tool("asm", "-q", "-o", table, input=b"check fun")
            self.assertEqual(written.returncode, 1)
            self.assertIn(b"line 1, column 10: expected a name", written.stderr)
            self.assertFalse(os.path.exists(table))


class Words(unittest.TestCase):
    def test_rules_have_the_premises_and_serials_of_stored_trees(self):
        with open(os.path.join(TOP, "crates", "trace", "stdout"), encoding="utf-8") as file:
            records = re.findall(r"^(\d+) \d+ (\d+|-) (\d+|-) (\d+) \| ", file.read(), re.M)
        shapes = {(int(rule), int(premises), sum(serial != "-" for serial in serials)) for rule, *serials, premises in records}
        self.assertEqual(shapes, {(rule.number, rule.premises, len(rule.serials)) for rule in vocabulary.rules()})

    def test_refusals_are_placed_and_given(self):
        for refusal in vocabulary.refusals().values():
            self.assertIn(refusal.counts, ("none", "record", "proposition", "term"))
            self.assertTrue({"rooms", "table", "filling", "edited", "checking", "synthesis", "goal", "nobody"}.issuperset(refusal.given_by))
            self.assertTrue(refusal.causes, refusal.number)

    def test_sections_are_there(self):
        for refusal in vocabulary.refusals().values():
            for cause in (refusal, *refusal.causes):
                page, sections = cause.section.split(" ", 1)
                with open(os.path.join(vocabulary.DOCS, page + ".md"), encoding="utf-8") as file:
                    text = file.read()
                for section in sections.split(", "):
                    self.assertTrue(self.has_section(text, section), cause)

    @staticmethod
    def has_section(text, section):
        """A heading's number, with a row's letter after it, or the number of a row."""
        heading, _, letter = section.partition(" ")
        below = re.search(r"^#+ %s .*?(?=^#|\Z)" % re.escape(heading), text, re.M | re.S)
        if letter or not below:
            return bool(re.search(r"^\| %s \| " % re.escape(letter or section), below.group() if below else text, re.M))
        return True


class Pages(unittest.TestCase):
    def test_what_pages_point_to_is_there(self):
        pages = [page for kind in ("*.md", "*/*.md", "tests/*/*.md") for page in glob.glob(os.path.join(TOP, kind))]
        missing = []
        for page in pages:
            with open(page, encoding="utf-8") as file:
                text = file.read()
            links = [os.path.join(os.path.dirname(page), link) for link in re.findall(r"\]\((?!http)([^)#]+)", text)]
            paths = [os.path.join(TOP, path) for path in re.findall(r"\bcrates/\w+(?:/[\w/-]+(?:\.\w+)?)?", text)]
            # What is built is there once it is built; its crate is there before.
            paths = [re.sub(r"(/crates/\w+)/out/.*", r"\1", path) for path in paths]
            missing += [(page, path) for path in links + paths if not os.path.exists(path)]
        self.assertEqual(missing, [])


if __name__ == "__main__":
    unittest.main()
