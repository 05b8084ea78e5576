"""From bytes to text: a table as one statement where it is well formed, else record by record."""
from . import layout
from .notation import CONSTANTS, LEAVES, QUANTIFIERS, UNARY
from .oddities import HEADER, Oddities, zeros_and_mark
from .trees import Prop, Term

SIGNS = {"Impl": "->", "Or": "|", "And": "&"}
WORDS = {kind: word for table in (CONSTANTS, QUANTIFIERS, UNARY, LEAVES) for word, kind in table.items()}

# How tightly a form binds; a part that binds less tightly than its place asks for stands in brackets.
OPEN, OR, AND, SIMPLE = range(4)
PROP_TIGHTNESS = {"Impl": OPEN, "ForAll": OPEN, "Exists": OPEN, "Or": OR, "And": AND}
# The left and the right part of each sign: the first sign goes to the right, the others to the left.
PARTS = {"Impl": (OR, OPEN), "Or": (OR, AND), "And": (AND, SIMPLE)}
APPLIED, ARGUMENT, CLOSED = range(1, 4)
TERM_TIGHTNESS = {"Function": OPEN, "LetIn": OPEN, "Application": APPLIED, **{kind: ARGUMENT for kind in UNARY.values()}}


def show(data, records=False):
    """Text that the assembler turns back into these bytes, or into the same table in its own order.
    With `records` a well-formed table too is shown record by record, and so in its own order."""
    if len(data) < layout.SIZE:
        return "-- ODD: shorter than a header\n" + bytes_line(data)
    odd = Oddities(data)
    return listing(odd) if odd.remarks or records else statement(odd.parts)


# A well-formed table

def statement(parts):
    term = term_text(term_at(parts, 0))
    if parts.header["expected"] == layout.NONE:
        return "filling %s\n" % term
    return "check %s\n    : %s\n" % (term, prop_text(prop_at(parts, parts.header["expected"])))


def prop_at(parts, number):
    record = parts.props[number]
    kind = layout.PROP_KINDS[record["kind"]]
    names = kind.names + layout.PARAMETERS[:record["count"]]
    return Prop(kind.word, tuple(record[field] for field in names),
                tuple(prop_at(parts, record[field]) for field in kind.links))


def term_at(parts, number):
    record = parts.terms[number]
    kind = layout.TERM_KINDS[record["kind"]]
    annotation = {layout.NO_TYPE: lambda: None,
                  layout.PROP_TYPE: lambda: prop_at(parts, record["type"]),
                  layout.DATA_TYPE: lambda: record["type"]}[record["tag"]]()
    return Term(kind.word, tuple(record[field] for field in kind.names),
                tuple(term_at(parts, record[field]) for field in kind.links), annotation)


def name_text(number):
    return "#%d" % number


def prop_text(prop, place=OPEN):
    text = bare_prop(prop)
    return text if PROP_TIGHTNESS.get(prop.kind, SIMPLE) >= place else "(%s)" % text


def bare_prop(prop):
    names = [name_text(name) for name in prop.names]
    if prop.kind in SIGNS:
        left, right = map(prop_text, prop.children, PARTS[prop.kind])
        return "%s %s %s" % (left, SIGNS[prop.kind], right)
    if prop.kind == "Atom":
        return names[0] + ("(%s)" % ", ".join(names[1:]) if names[1:] else "")
    if prop.children:
        return "%s %s:%s. %s" % (WORDS[prop.kind], *names, prop_text(prop.children[0]))
    return WORDS[prop.kind]


def term_text(term, place=OPEN):
    text = bare_term(term)
    return text if TERM_TIGHTNESS.get(term.kind, CLOSED) >= place else "(%s)" % text


def bare_term(term):
    names = [name_text(name) for name in term.names]
    if term.kind in UNARY.values():
        return "%s %s" % (WORDS[term.kind], term_text(term.children[0], ARGUMENT))
    if term.kind == "Application":
        return "%s %s" % tuple(map(term_text, term.children, (APPLIED, ARGUMENT)))
    parts = [term_text(child) for child in term.children]
    if term.kind == "Function":
        annotation = "" if term.type is None else " : " + type_text(term.type)
        return "fun %s%s. %s" % (*names, annotation, *parts)
    if term.kind == "LetIn":
        return "let (%s, %s) = %s in %s" % (*names, *parts)
    if term.kind == "Case":
        return "case %s of %s. %s ; %s. %s end" % (parts[0], names[0], parts[1], names[1], parts[2])
    if term.kind == "Pair":
        return "(%s, %s)" % tuple(parts)
    if term.kind == "TypeAscription":
        return "(%s : %s)" % (*parts, type_text(term.type))
    return names[0] if term.kind == "Ident" else WORDS[term.kind]


def type_text(annotation):
    return "[%s]" % prop_text(annotation) if isinstance(annotation, Prop) else "@" + name_text(annotation)


# Any other file

def listing(odd):
    """A statement a record, what is odd about it beside it."""
    lines = [remarked("header" + fields_text(odd.parts.header, {"version": layout.VERSION}), odd, HEADER)]
    lines += ["set byte %d 0x%02x" % (at, odd.data[at]) for at, byte in zeros_and_mark() if odd.data[at] != byte]
    for sort, records in (("prop", odd.parts.props), ("term", odd.parts.terms)):
        lines += [remarked(record_text(sort, record), odd, (sort, number)) for number, record in enumerate(records)]
    return "".join(line + "\n" for line in lines) + bytes_line(odd.parts.rest)


def record_text(sort, record):
    kinds, number = layout.SORTS[sort].kinds, record["kind"]
    word = kinds[number].word if number < len(kinds) else str(number)
    return "%s %s%s" % (sort, word, fields_text(record, {"kind": number}))


def fields_text(values, usual):
    """The fields that are not as usual; 0 is usual unless something else is said."""
    return "".join(" %s %d" % (field, value) for field, value in values.items() if value != usual.get(field, 0))


def remarked(text, odd, place):
    number = "" if place == HEADER else str(place[1])
    remarks = odd.remarks.get(place, [])
    said = "ODD: " + "; ".join(remarks) if remarks else ""
    comment = " ".join(part for part in (number, said) if part)
    return "%-50s -- %s" % (text, comment) if comment else text


def bytes_line(data):
    """What is too short for a record, or more than the header counts."""
    return "bytes%s\n" % "".join(" 0x%02x" % byte for byte in data) if data else ""
