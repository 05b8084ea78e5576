"""How a table file is laid out: a header, proposition records, term records, 16 bytes each."""
from typing import NamedTuple

SIZE = 16
MARK = b"NDT\0"
VERSION = 1
NONE = 65535
MOST_PROPS = 1024
MOST_TERMS = 512
MOST_HEIGHT = 32
MOST_DEPTH = 64

# A term's type field is nothing, a proposition's number or a datatype's name: the tag tells which.
NO_TYPE, PROP_TYPE, DATA_TYPE = 0, 1, 2


class Field(NamedTuple):
    start: int
    width: int


def _fields(**starts):
    """Fields of two bytes, but for the two that open a record."""
    return {name: Field(start, 1 if start < 2 else 2) for name, start in starts.items()}


HEADER = _fields(version=4, props=6, terms=8, expected=10)
PROP = _fields(kind=0, count=1, a=2, b=4, c=6, p1=8, p2=10, p3=12, p4=14)
TERM = _fields(kind=0, tag=1, type=2, name1=4, name2=6, child1=8, child2=10, child3=12, zero=14)
PARAMETERS = ("p1", "p2", "p3", "p4")


class Kind(NamedTuple):
    """A kind's word and the fields it uses: for names, and for links to records of its own sort."""
    word: str
    names: tuple = ()
    links: tuple = ()


PROP_KINDS = (
    Kind("True"),
    Kind("False"),
    Kind("And", links=("a", "b")),
    Kind("Or", links=("a", "b")),
    Kind("Impl", links=("a", "b")),
    Kind("ForAll", names=("a", "b"), links=("c",)),
    Kind("Exists", names=("a", "b"), links=("c",)),
    Kind("Atom", names=("a",)),
)

TERM_KINDS = (
    Kind("Ident", names=("name1",)),
    Kind("Pair", links=("child1", "child2")),
    Kind("ProjectFst", links=("child1",)),
    Kind("ProjectSnd", links=("child1",)),
    Kind("Function", names=("name1",), links=("child1",)),
    Kind("Application", links=("child1", "child2")),
    Kind("LetIn", names=("name1", "name2"), links=("child1", "child2")),
    Kind("OrLeft", links=("child1",)),
    Kind("OrRight", links=("child1",)),
    Kind("Case", names=("name1", "name2"), links=("child1", "child2", "child3")),
    Kind("Abort", links=("child1",)),
    Kind("Unit"),
    Kind("TypeAscription", links=("child1",)),
    Kind("Sorry"),
)

# The tags a kind may bear; every other kind bears none.
TAGS = {"Function": (NO_TYPE, PROP_TYPE, DATA_TYPE), "TypeAscription": (PROP_TYPE, DATA_TYPE)}

PROP_NUMBERS = {kind.word: number for number, kind in enumerate(PROP_KINDS)}
TERM_NUMBERS = {kind.word: number for number, kind in enumerate(TERM_KINDS)}


class Sort(NamedTuple):
    """One of the two sorts of record."""
    fields: dict
    kinds: tuple
    numbers: dict


SORTS = {"prop": Sort(PROP, PROP_KINDS, PROP_NUMBERS), "term": Sort(TERM, TERM_KINDS, TERM_NUMBERS)}


def pack(fields, values):
    """16 bytes with these values in these fields, and zeros elsewhere."""
    record = bytearray(SIZE)
    for name, value in values.items():
        put(record, 0, fields[name], value)
    return bytes(record)


def unpack(fields, record):
    """The value of each field of a record."""
    return {name: int.from_bytes(record[start:start + width], "little")
            for name, (start, width) in fields.items()}


def put(data, at, field, value):
    """Overwrites a field of the record that begins at `at`."""
    start = at + field.start
    data[start:start + field.width] = value.to_bytes(field.width, "little")


def header(**values):
    """A header; what is not given is as it should be, or 0."""
    return MARK + pack(HEADER, {"version": VERSION, **values})[len(MARK):]


class Parts(NamedTuple):
    """A file cut up by its header's counts, as far as the file goes."""
    header: dict
    props: list
    terms: list
    rest: bytes


def cut(data):
    """The parts of a file of at least 16 bytes."""
    head = unpack(HEADER, data[:SIZE])
    whole = [data[at:at + SIZE] for at in range(SIZE, len(data) - SIZE + 1, SIZE)]
    props = whole[:head["props"]]
    terms = whole[head["props"]:][:head["terms"]]
    used = SIZE * (1 + len(props) + len(terms))
    return Parts(head, [unpack(PROP, record) for record in props],
                 [unpack(TERM, record) for record in terms], data[used:])
