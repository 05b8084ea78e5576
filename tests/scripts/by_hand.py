"""Answers by hand, as rows have them, held against the lines that a program prints."""
import re

from ndt.notation import Names, Parser
from ndt.script import statements

SERIAL = re.compile(r"s(\d+)$")


def canonical(prop, names, binders=()):
    """A tree as `trace` prints it."""
    inner = binders
    if prop.kind in ("ForAll", "Exists"):
        inner = prop.names[:1] + binders
    parts = [canonical(child, names, inner) for child in prop.children]
    if prop.kind in ("True", "False"):
        return prop.kind[0]
    if prop.kind == "Atom":
        return "(p n%d%s)" % (prop.names[0], "".join(parameter(x, names, binders) for x in prop.names[1:]))
    sign = {"And": "&", "Or": "|", "Impl": ">", "ForAll": "A", "Exists": "E"}[prop.kind]
    return "(%s)" % " ".join([sign] + ["n%d" % name for name in prop.names] + parts)


def parameter(x, names, binders):
    if x in binders:
        return " b%d" % binders.index(x)
    serial = SERIAL.match(names.get(x, ""))
    return " s" + serial.group(1) if serial else " fn%d" % x


def conclusion(text, numbers):
    """What a row says in the notation of scripts, as `trace` prints it."""
    names = Names(numbers.values())
    names.numbers.update(numbers)
    judgement = re.match(r"s(\d+) : (\w+)$", text)
    if judgement:
        return "s%s : n%d" % (judgement.group(1), numbers[judgement.group(2)])
    parser = Parser(statements("check sorry : " + text)[0], names)
    parser.take()
    parser.term()
    parser.expect(":")
    prop = parser.prop()
    return canonical(prop, {number: spelling for spelling, number in names.numbers.items()})


def same(by_hand, line, numbers):
    """Whether a line says what a row says. A conclusion that a row leaves out may be any."""
    head, bar, said = by_hand.partition(" | ")
    have, _, concluded = line.partition(" | ")
    return head == have and (not bar or conclusion(said, numbers) == concluded)


def agrees(answer, lines, numbers):
    """Whether the lines are those of an answer by hand; records, goals and counts may be left out there, each sort as a whole."""
    if answer[0] != lines[0]:
        return False
    for sort in (is_record, is_goal, is_counts):
        by_hand = [line for line in answer[1:] if sort(line)]
        have = [line for line in lines[1:] if sort(line)]
        if by_hand and (len(by_hand) != len(have) or not all(same(a, b, numbers) for a, b in zip(by_hand, have))):
            return False
    return True


def is_record(line):
    return line[0].isdigit()


def is_goal(line):
    return line.startswith("goal ")


def is_counts(line):
    return line.startswith("counts ")
