"""From trees to records. Terms stand parent first, left to right; propositions children first, in the
order in which the terms need them, the expected one last."""
from . import layout
from .trees import Prop


class Builder:
    """The records of one table, growing."""

    def __init__(self):
        self.props, self.terms = [], []

    def add_prop(self, prop):
        """The number of the record that stands for `prop`."""
        number = layout.PROP_NUMBERS[prop.kind]
        kind = layout.PROP_KINDS[number]
        values = {"kind": number, **dict(zip(kind.names, prop.names))}
        values.update(zip(kind.links, [self.add_prop(child) for child in prop.children]))
        if kind.word == "Atom":
            parameters = prop.names[len(kind.names):]
            values.update(zip(layout.PARAMETERS, parameters), count=len(parameters))
        self.props.append(layout.pack(layout.PROP, values))
        return len(self.props) - 1

    def add_term(self, term):
        """The number of the record that stands for `term`."""
        place = len(self.terms)
        self.terms.append(None)
        number = layout.TERM_NUMBERS[term.kind]
        kind = layout.TERM_KINDS[number]
        values = {"kind": number, **dict(zip(kind.names, term.names)), **self.typed(term.type)}
        values.update(zip(kind.links, [self.add_term(child) for child in term.children]))
        self.terms[place] = layout.pack(layout.TERM, values)
        return place

    def typed(self, annotation):
        """The tag and type fields of an annotation."""
        if annotation is None:
            return {"tag": layout.NO_TYPE}
        if isinstance(annotation, Prop):
            return {"tag": layout.PROP_TYPE, "type": self.add_prop(annotation)}
        return {"tag": layout.DATA_TYPE, "type": annotation}


def build(term, expected):
    """Header, proposition records and term records; `expected` is None for a filling."""
    builder = Builder()
    builder.add_term(term)
    number = layout.NONE if expected is None else builder.add_prop(expected)
    head = layout.header(props=len(builder.props), terms=len(builder.terms), expected=number)
    return head, builder.props, builder.terms
