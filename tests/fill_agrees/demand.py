"""Demand 3: an answer of `trace_fill` beside the checks of the old table and of the edited one."""
import re
from typing import NamedTuple

import reference

SERIAL = re.compile(r"\bs(\d+)\b")


class Accepted(NamedTuple):
    """What an acceptance says."""
    records: list
    goals: list
    serials: int
    made: int


def accepted(lines):
    counts = lines[-1].split()
    return Accepted([line for line in lines if line[0].isdigit()], [line for line in lines if line.startswith("goal ")], int(counts[2]), int(counts[4]))


def is_refused(lines):
    return lines[0].startswith("refused")


def is_edited(mine):
    """Whether the answer is about an edited table."""
    return not is_refused(mine) or mine[1] == "where edited"


# The answer that the edited table should have

def moved(line, first, by):
    """The line with every serial from `first` on moved up."""
    def later(serial):
        return str(int(serial) + (by if int(serial) >= first else 0))
    head, _, said = line.partition(" | ")
    words = head.split(" ")
    if words[0] != "goal":
        words[2:4] = [word if word == "-" else later(word) for word in words[2:4]]
    return "%s | %s" % (" ".join(words), SERIAL.sub(lambda found: "s" + later(found.group(1)), said))


def grown(old, goal, hole, part):
    """The old answer with the leaf of that goal replaced, its goals replaced, later serials moved up, and the counts grown."""
    leaf = [place for place, line in enumerate(old.records) if line.startswith("15 ")][goal]
    records, goals = ([moved(line, hole.serials, part.serials) for line in lines] for lines in (old.records, old.goals))
    return Accepted(records[:leaf] + part.records + records[leaf + 1:], goals[:goal] + part.goals + goals[goal + 1:],
                    old.serials + part.serials, old.made + part.made - hole.made)


def terms_after(table, hole):
    """The terms that run after the hole: those around it, whose rules go on when it is done, and those behind it."""
    found = []

    def walk(term, behind):
        """Whether the hole has been passed."""
        passed = behind or term == hole
        if term != hole:
            for link in table.terms[term].links():
                passed = walk(link, passed)
            if passed:
                found.append(term)
        return passed
    walk(0, False)
    return found


# Violations

def violation(triple, mine, old, fresh):
    """What is wrong with an answer, or nothing. `fresh` is the check of the edited table, where the answer is about one."""
    if is_refused(mine):
        return wrong_refusal(triple, mine, old, fresh)
    if is_refused(old) or triple.hole is None:
        return "accepted, but there is no such goal"
    wanted = grown(accepted(old), triple.goal, triple.hole, accepted(mine))
    if not is_refused(fresh):
        return None if accepted(fresh) == wanted else "the edited table's tree is not the old one with that leaf replaced"
    number, place = map(int, fresh[0].split()[1:])
    table = reference.tests.Table(reference.edited(triple.old, triple.filling, triple.hole.term))
    if number == 30 and place in terms_after(table, triple.hole.term) and wanted.made > reference.rules.MOST_MADE:
        return None
    return "accepted, but the edited table is refused"


def wrong_refusal(triple, mine, old, fresh):
    said, which = mine
    if which == "where edited":
        return None if fresh[0] == said else "the edited table is not refused so"
    if which == "where filling":
        right = not is_refused(old) and reference.tests.answer(triple.filling, True) == said
        return None if right else "the filling is not refused so"
    if said == "refused 31 0":
        right = not is_refused(old) and len(accepted(old).goals) <= triple.goal
        return None if right else "there is such a goal"
    return None if old[0] == said else "the old table is not refused so"
