"""Propositions and terms as trees. Names are numbers here: spellings end with the notation."""
from typing import NamedTuple, Optional, Union


class Prop(NamedTuple):
    """`names` are an atom's predicate and parameters, or a quantifier's object and datatype."""
    kind: str
    names: tuple = ()
    children: tuple = ()


class Term(NamedTuple):
    """`type` is an annotation: a proposition, a datatype's name, or none."""
    kind: str
    names: tuple = ()
    children: tuple = ()
    type: Optional[Union[Prop, int]] = None
