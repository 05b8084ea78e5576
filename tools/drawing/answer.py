"""An answer of the program `trace`, read into a tree."""
import os
import re
import subprocess
from typing import NamedTuple, Optional

RUN = os.path.join(os.path.dirname(os.path.abspath(__file__)), "..", "run")
TOKEN = re.compile(r"[()]|[^\s()]+")
SORRY = 15


class Refused(Exception):
    """The table has no tree: `refused`, a number and a place."""


class Node(NamedTuple):
    """A tree record. A conclusion is a nested list as `trace` prints it: a proposition, or a judgement's serial and datatype after a colon.
    `goal` counts the Sorry leaves from the left."""
    rule: int
    term: int
    serials: tuple
    conclusion: list
    premises: tuple
    goal: Optional[int]


def ask(data, program):
    """The lines of the answer to a table by `trace`, which tools/run finds. An empty one would end the input of `trace`; the first test of a file refuses it."""
    if not data:
        return ["refused 2 0"]
    run = subprocess.run([RUN, program], input=len(data).to_bytes(4, "little") + data, stdout=subprocess.PIPE, check=True)
    return run.stdout.decode().split("\n\n")[0].split("\n")[1:]


def read(lines):
    """The tree of an accepted table."""
    if not lines:
        raise ValueError("no answer")
    if lines[0].startswith("refused "):
        raise Refused(lines[0])
    count = int(lines[0].split()[1])
    records = iter(lines[1:1 + count])
    goals = iter(range(count))
    return next_node(records, goals)


def next_node(records, goals):
    """A record and those of its premises, which follow it."""
    said, concluded = next(records).split(" | ", 1)
    rule, term, first, second, premises = said.split()
    goal = next(goals) if int(rule) == SORRY else None
    return Node(int(rule), int(term), tuple(int(serial) for serial in (first, second) if serial != "-"), conclusion(concluded),
                tuple(next_node(records, goals) for _ in range(int(premises))), goal)


def conclusion(text):
    if " : " in text:
        return [":", *text.split(" : ")]
    tokens = TOKEN.findall(text)
    tokens.reverse()
    return nested(tokens)


def nested(tokens):
    """The next list among the tokens, which stand last first. A constant is a list of one."""
    token = tokens.pop()
    if token != "(":
        return [token]
    found = []
    while tokens[-1] != ")":
        found.append(nested(tokens) if tokens[-1] == "(" or tokens[-1] in "TF" else tokens.pop())
    tokens.pop()
    return found
