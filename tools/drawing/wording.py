"""What a picture says: names, propositions, rules and labels, in plain signs or in those of LaTeX."""
import re
from typing import NamedTuple, Optional

import vocabulary
from ndt import layout
from ndt.show import OPEN, PARTS, PROP_TIGHTNESS, SIMPLE

KINDS = {">": "Impl", "|": "Or", "&": "And", "A": "ForAll", "E": "Exists", "p": "Atom", "T": "True", "F": "False"}
RULES = vocabulary.rules()
IDENT = next(rule.number for rule in RULES if rule.name == "Ident")


class Plain:
    """Signs for a terminal and for SVG."""
    SIGNS = {"Impl": "⇒", "Or": "∨", "And": "∧", "ForAll": "∀", "Exists": "∃", "True": "⊤", "False": "⊥", "Alpha": "α"}
    PRIME = "′"
    LOW = str.maketrans("0123456789", "₀₁₂₃₄₅₆₇₈₉")
    HIGH = str.maketrans("0123456789", "⁰¹²³⁴⁵⁶⁷⁸⁹")

    def name(self, text):
        return text

    def low(self, number):
        return str(number).translate(self.LOW)

    def high(self, number):
        return str(number).translate(self.HIGH)

    def quantified(self, sign, name, datatype, body):
        return "%s%s:%s. %s" % (sign, name, datatype, body)

    def rule(self, sign, text, serials):
        return " ".join([sign + re.sub(r"\d", lambda digit: self.low(digit.group()), text), *serials])


class Latex:
    """The same for LaTeX's mathematics."""
    SIGNS = {"Impl": r"\Rightarrow", "Or": r"\lor", "And": r"\land", "ForAll": r"\forall ", "Exists": r"\exists ", "True": r"\top", "False": r"\bot",
             "Alpha": r"\alpha"}
    PRIME = "'"

    def name(self, text):
        text = text.replace("_", r"\_").replace("#", r"\#")
        return text if len(text) == 1 else r"\mathit{%s}" % text

    def low(self, number):
        return "_{%d}" % number

    def high(self, number):
        return "^{%d}" % number

    def quantified(self, sign, name, datatype, body):
        return r"%s%s{:}%s.\, %s" % (sign, name, datatype, body)

    def rule(self, sign, text, serials):
        return " ".join([r"${%s}\mathrm{%s}$" % (sign.strip(), re.sub(r"(\d)", r"_\1", text)), *serials])


class Figure(NamedTuple):
    """A node in words. Without a label it has no line above it; a goal's line is dotted."""
    text: str
    label: Optional[str]
    goal: bool
    about: str
    above: tuple


class Wording:
    """The words of one table's tree. `names` gives the spellings of names by number."""

    def __init__(self, data, names, signs):
        self.terms, self.names, self.signs = layout.cut(data).terms, names, signs
        self.makers = {}

    def figure(self, node):
        """Whatever stands above a node may speak of the serials that it makes."""
        if node.rule != IDENT:
            fields = (self.terms[node.term][field] for field in ("name1", "name2"))
            self.makers.update(zip(node.serials, fields))
        said = self.concluded(node.conclusion)
        about = "term %d: %s" % (node.term, RULES[node.rule].name)
        if node.rule == IDENT:
            return Figure("[%s]%s" % (said, self.signs.high(*node.serials)), None, False, about, ())
        return Figure(said, self.label(node), node.goal is not None, about, tuple(self.figure(premise) for premise in node.premises))

    def label(self, node):
        if node.goal is not None:
            return "goal %d" % node.goal
        sign, *text = RULES[node.rule].label
        return self.signs.rule(self.signs.SIGNS[sign], "".join(text), [str(serial) for serial in node.serials])

    # Names

    def name(self, number):
        return self.signs.name(self.names.get(number, "#%d" % number))

    def identifier(self, serial):
        """A serial, after the spelling under which it was made if that is known."""
        return self.signs.name(self.names.get(self.makers[serial], "s")) + self.signs.low(serial)

    # Propositions

    def concluded(self, said):
        if said[0] == ":":
            return "%s : %s" % (self.identifier(int(said[1][1:])), self.name(int(said[2][1:])))
        return self.proposition(said, OPEN, ())

    def proposition(self, said, place, binders):
        """`binders` are the words for the quantifiers above, the nearest first."""
        kind = KINDS[said[0]]
        text = self.bare(kind, said, binders)
        return text if PROP_TIGHTNESS.get(kind, SIMPLE) >= place else "(%s)" % text

    def bare(self, kind, said, binders):
        if kind in PARTS:
            left, right = (self.proposition(part, tight, binders) for part, tight in zip(said[1:], PARTS[kind]))
            return "%s %s %s" % (left, self.signs.SIGNS[kind], right)
        if kind == "Atom":
            parameters = [self.parameter(text, binders) for text in said[2:]]
            return self.name(int(said[1][1:])) + ("(%s)" % ", ".join(parameters) if parameters else "")
        if kind in ("True", "False"):
            return self.signs.SIGNS[kind]
        name = self.binder(said, binders)
        return self.signs.quantified(self.signs.SIGNS[kind], name, self.name(int(said[2][1:])), self.proposition(said[3], OPEN, (name, *binders)))

    def parameter(self, text, binders):
        """A bound one, a serial or a free name."""
        if text[0] == "b":
            return binders[int(text[1:])]
        return self.identifier(int(text[1:])) if text[0] == "s" else self.name(int(text[2:]))

    def binder(self, said, binders):
        """A quantifier's name, primed where it would hide another that its body speaks of."""
        hidden = {binders[place - 1] for place in spoken_of(said[3]) if place > 0}
        name = self.name(int(said[1][1:]))
        while name in hidden:
            name += self.signs.PRIME
        return name


def spoken_of(said):
    """The quantifiers above a proposition that its atoms speak of: 0 is the nearest."""
    if said[0] == "p":
        return {int(text[1:]) for text in said[2:] if text[0] == "b"}
    inner = set().union(*(spoken_of(part) for part in said[1:] if isinstance(part, list)))
    return {place - 1 for place in inner if place > 0} if said[0] in "AE" else inner
