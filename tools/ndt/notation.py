"""The text notation of terms and propositions, read into trees. tools/README.md gives the grammar."""
import re
from typing import NamedTuple

from .layout import NONE, PARAMETERS
from .trees import Prop, Term

FIRST_NAME = 10

UNARY = {"fst": "ProjectFst", "snd": "ProjectSnd", "inl": "OrLeft", "inr": "OrRight", "abort": "Abort"}
LEAVES = {"unit": "Unit", "sorry": "Sorry"}
CONSTANTS = {"T": "True", "F": "False"}
QUANTIFIERS = {"all": "ForAll", "ex": "Exists"}
WORDS = {*UNARY, *LEAVES, *CONSTANTS, *QUANTIFIERS, "fun", "let", "in", "case", "of", "end"}

SPACE = re.compile(r"\s*")
TOKEN = re.compile(r"->|#[0-9]+|0x[0-9a-fA-F]+|[0-9]+|[A-Za-z_][A-Za-z0-9_']*|[()\[\],.:;=&|@]")
COMMENT = "--"


class NotationError(Exception):
    """Something in the text that can't be read, and where."""

    def __init__(self, token, message):
        super().__init__("line %d, column %d: %s" % (token.line, token.column, message))


class Token(NamedTuple):
    """A piece of text; an empty one ends a statement."""
    text: str
    line: int
    column: int

    def shown(self):
        return "'%s'" % self.text if self.text else "the end of the statement"

    def is_spelling(self):
        return bool(re.match(r"[A-Za-z_]", self.text))

    def is_spelled_name(self):
        return self.is_spelling() and self.text not in WORDS

    def is_written_name(self):
        """Is it a name given by its number?"""
        return self.text.startswith("#")

    def written_number(self):
        return int(self.text[1:])

    def is_name(self):
        return self.is_spelled_name() or self.is_written_name()


def line_tokens(text, line):
    """The tokens of one line, comments left out."""
    text = text.split(COMMENT, 1)[0].rstrip()
    found, at = [], SPACE.match(text).end()
    while at < len(text):
        match = TOKEN.match(text, at)
        if not match:
            raise NotationError(Token(text[at], line, at + 1), "'%s' has no meaning here" % text[at])
        found.append(Token(match.group(), line, at + 1))
        at = SPACE.match(text, match.end()).end()
    return found


class Names:
    """The number of each spelling: from 10 up in order of appearance, leaving out numbers in use."""

    def __init__(self, used=()):
        self.numbers = {}
        self.used = set(used)
        self.next = FIRST_NAME

    def number(self, token):
        number = token.written_number() if token.is_written_name() else self.spelled(token)
        if number > NONE:
            raise NotationError(token, "a name's number is at most %d" % NONE)
        return number

    def spelled(self, token):
        if token.text not in self.numbers:
            while self.next in self.used:
                self.next += 1
            self.give(token, self.next)
        return self.numbers[token.text]

    def give(self, token, number):
        """Settles a spelling's number. No two spellings share one."""
        for spelling, other in self.numbers.items():
            if (spelling == token.text) != (other == number):
                raise NotationError(token, "%s already has the number %d" % (spelling, other))
        self.numbers[token.text] = number
        self.used.add(number)


class Parser:
    """Reads the tokens of one statement from left to right."""

    def __init__(self, tokens, names):
        self.tokens, self.names = tokens, names
        self.at = 0

    def peek(self):
        return self.tokens[self.at]

    def sees(self, *texts):
        return self.peek().text in texts

    def take(self):
        token = self.peek()
        if token.text:
            self.at += 1
        return token

    def fail(self, wanted):
        raise NotationError(self.peek(), "expected %s, found %s" % (wanted, self.peek().shown()))

    def expect(self, text):
        if not self.sees(text):
            self.fail("'%s'" % text)
        self.take()

    def expect_end(self):
        if self.peek().text:
            self.fail("the end of the statement")

    def expect_number(self, most=NONE):
        text = self.peek().text
        if not text[:1].isdigit():
            self.fail("a number")
        value = int(text, 16 if text.startswith("0x") else 10)
        if value > most:
            self.fail("a number up to %d" % most)
        self.take()
        return value

    def expect_spelling(self):
        if not self.peek().is_spelling():
            self.fail("a word")
        return self.take()

    def expect_name(self):
        if not self.peek().is_name():
            self.fail("a name")
        return self.names.number(self.take())

    # Propositions, from the weakest sign to the strongest

    def prop(self):
        left = self.joined("|", "Or", lambda: self.joined("&", "And", self.simple_prop))
        if not self.sees("->"):
            return left
        self.take()
        return Prop("Impl", children=(left, self.prop()))

    def joined(self, sign, kind, part):
        left = part()
        while self.sees(sign):
            self.take()
            left = Prop(kind, children=(left, part()))
        return left

    def simple_prop(self):
        if self.sees("("):
            self.take()
            inner = self.prop()
            self.expect(")")
            return inner
        if self.sees(*CONSTANTS):
            return Prop(CONSTANTS[self.take().text])
        if self.sees(*QUANTIFIERS):
            return self.quantified()
        if self.peek().is_name():
            return self.atom()
        return self.fail("a proposition")

    def quantified(self):
        kind = QUANTIFIERS[self.take().text]
        name = self.expect_name()
        self.expect(":")
        datatype = self.expect_name()
        self.expect(".")
        return Prop(kind, (name, datatype), (self.prop(),))

    def atom(self):
        predicate, parameters = self.expect_name(), []
        if self.sees("("):
            parameters = self.parameters()
        return Prop("Atom", (predicate, *parameters))

    def parameters(self):
        opening, found = self.take(), [self.expect_name()]
        while self.sees(","):
            self.take()
            found.append(self.expect_name())
        self.expect(")")
        if len(found) > len(PARAMETERS):
            raise NotationError(opening, "an atom has at most %d parameters" % len(PARAMETERS))
        return found

    # Terms

    def term(self):
        """Any term: `fun` and `let` reach as far right as they can."""
        if self.sees("fun"):
            return self.function()
        if self.sees("let"):
            return self.let()
        return self.application()

    def function(self):
        self.take()
        name, annotation = self.expect_name(), None
        if self.sees(":"):
            self.take()
            annotation = self.type()
        self.expect(".")
        return Term("Function", (name,), (self.term(),), annotation)

    def let(self):
        self.take()
        self.expect("(")
        first = self.expect_name()
        self.expect(",")
        second = self.expect_name()
        self.expect(")")
        self.expect("=")
        head = self.term()
        self.expect("in")
        return Term("LetIn", (first, second), (head, self.term()))

    def application(self):
        left = self.unary()
        while self.starts_argument():
            left = Term("Application", children=(left, self.unary()))
        return left

    def starts_argument(self):
        return self.sees("(", "case", *UNARY, *LEAVES) or self.peek().is_name()

    def unary(self):
        if not self.sees(*UNARY):
            return self.closed_term()
        return Term(UNARY[self.take().text], children=(self.unary(),))

    def closed_term(self):
        """A term whose own last sign ends it."""
        if self.sees(*LEAVES):
            return Term(LEAVES[self.take().text])
        if self.sees("case"):
            return self.case()
        if self.sees("("):
            return self.bracketed()
        if self.peek().is_name():
            return Term("Ident", (self.expect_name(),))
        return self.fail("a term")

    def case(self):
        self.take()
        head = self.term()
        self.expect("of")
        first, left = self.arm()
        self.expect(";")
        second, right = self.arm()
        self.expect("end")
        return Term("Case", (first, second), (head, left, right))

    def arm(self):
        name = self.expect_name()
        self.expect(".")
        return name, self.term()

    def bracketed(self):
        self.take()
        inner = self.term()
        if self.sees(","):
            self.take()
            inner = Term("Pair", children=(inner, self.term()))
        elif self.sees(":"):
            self.take()
            inner = Term("TypeAscription", children=(inner,), type=self.type())
        elif not self.sees(")"):
            self.fail("',', ':' or ')'")
        self.expect(")")
        return inner

    def type(self):
        if self.sees("@"):
            self.take()
            return self.expect_name()
        if self.sees("["):
            self.take()
            prop = self.prop()
            self.expect("]")
            return prop
        return self.fail("a type, '@' or '['")
