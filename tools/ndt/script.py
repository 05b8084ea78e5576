"""Scripts: statements that write a table, or forge one. tools/README.md lists them."""
from . import layout
from .build import build
from .notation import Names, NotationError, Parser, Token, line_tokens


def statements(text):
    """The tokens of each statement, closed by an empty one. An indented line goes on with the last statement."""
    found = []
    for number, line in enumerate(text.split("\n"), 1):
        tokens = line_tokens(line, number)
        if not tokens:
            continue
        if tokens[0].column == 1:
            found.append([])
        elif not found:
            raise NotationError(tokens[0], "the first statement must not be indented")
        found[-1] += tokens
    return [tokens + [end_of(tokens[-1])] for tokens in found]


def end_of(last):
    return Token("", last.line, last.column + len(last.text))


class Assembler:
    """The bytes written so far, and where each record among them begins."""

    def __init__(self, names):
        self.names = names
        self.data = bytearray()
        self.starts = {"header": [], "prop": [], "term": []}

    def run(self, tokens):
        """Does what one statement says."""
        parser = Parser(tokens, self.names)
        word = parser.take()
        act = STATEMENTS.get(word.text)
        if act is None:
            raise NotationError(word, "expected a statement (%s), found %s" % (", ".join(STATEMENTS), word.shown()))
        try:
            act(self, parser)
            parser.expect_end()
        except RecursionError:
            raise NotationError(word, "nested too deeply to be read") from None

    def add(self, sort, record):
        self.starts[sort].append(len(self.data))
        self.data += record

    # A whole table

    def write_check(self, parser):
        term = parser.term()
        parser.expect(":")
        self.write_table(parser, term, parser.prop())

    def write_filling(self, parser):
        self.write_table(parser, parser.term(), None)

    def write_table(self, parser, term, expected):
        parser.expect_end()
        if self.data:
            raise NotationError(parser.tokens[0], "a whole table must come first")
        try:
            head, props, terms = build(term, expected)
        except OverflowError:
            raise NotationError(parser.tokens[0], "more records than a header can count") from None
        self.add("header", head)
        for record in props:
            self.add("prop", record)
        for record in terms:
            self.add("term", record)

    # One record after the other

    def write_header(self, parser):
        self.add("header", layout.header(**assignments(parser, layout.HEADER)))

    def write_prop(self, parser):
        self.write_record(parser, "prop")

    def write_term(self, parser):
        self.write_record(parser, "term")

    def write_record(self, parser, sort):
        shape = layout.SORTS[sort]
        kind = value_of(parser, shape.fields["kind"], shape.numbers)
        values = {"kind": kind, **assignments(parser, shape.fields, shape.numbers)}
        self.add(sort, layout.pack(shape.fields, values))

    def write_bytes(self, parser):
        while parser.peek().text:
            self.data.append(parser.expect_number(255))

    # Changes to what is written

    def change(self, parser):
        word = parser.expect_spelling()
        if word.text == "byte":
            self.change_byte(parser)
        elif word.text == "header":
            self.change_fields(parser, "header", 0, layout.HEADER, {})
        elif word.text in layout.SORTS:
            shape = layout.SORTS[word.text]
            self.change_fields(parser, word.text, parser.expect_number(), shape.fields, shape.numbers)
        else:
            raise NotationError(word, "expected 'header', 'prop', 'term' or 'byte', found %s" % word.shown())

    def change_fields(self, parser, sort, number, fields, kinds):
        if number >= len(self.starts[sort]):
            raise NotationError(parser.tokens[1], "no %s %d is written so far" % (sort, number))
        for name, value in assignments(parser, fields, kinds).items():
            layout.put(self.data, self.starts[sort][number], fields[name], value)

    def change_byte(self, parser):
        number = parser.expect_number()
        if number >= len(self.data):
            raise NotationError(parser.tokens[1], "no byte %d is written so far" % number)
        self.data[number] = parser.expect_number(255)

    def drop(self, parser):
        count = parser.expect_number(len(self.data))
        del self.data[len(self.data) - count:]
        # A record that lost its end can't be set any more.
        for sort, starts in self.starts.items():
            self.starts[sort] = [start for start in starts if start + layout.SIZE <= len(self.data)]

    def settle_name(self, parser):
        if not parser.peek().is_spelled_name():
            parser.fail("the spelling of a name")
        self.names.give(parser.take(), parser.expect_number())


STATEMENTS = {
    "check": Assembler.write_check,
    "filling": Assembler.write_filling,
    "header": Assembler.write_header,
    "prop": Assembler.write_prop,
    "term": Assembler.write_term,
    "bytes": Assembler.write_bytes,
    "set": Assembler.change,
    "drop": Assembler.drop,
    "name": Assembler.settle_name,
}


def assignments(parser, fields, kinds=()):
    """Pairs of a field and its value, to the end of the statement."""
    found = {}
    while parser.peek().text:
        field = parser.peek().text
        if field not in fields:
            parser.fail("a field (%s)" % ", ".join(fields))
        parser.take()
        found[field] = value_of(parser, fields[field], kinds if field == "kind" else ())
    return found


def value_of(parser, field, words=()):
    """A field's value: a number that fits, or one of the words that stand for one."""
    if parser.peek().text in words:
        return words[parser.take().text]
    if parser.peek().is_spelling() and words:
        parser.fail("a number or a kind (%s)" % ", ".join(words))
    return parser.expect_number(256 ** field.width - 1)


def assemble(text, names=""):
    """The bytes that a script writes, and the number of each spelling in it. `names` are statements to begin with."""
    found = statements(names) + statements(text)
    written = {token.written_number() for tokens in found for token in tokens if token.is_written_name()}
    assembler = Assembler(Names(written))
    for tokens in found:
        assembler.run(tokens)
    return bytes(assembler.data), assembler.names.numbers
