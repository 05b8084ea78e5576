"""The batches: a name, and the tables that it stands for. Every batch is drawn from its own name, so each can be made alone."""
import itertools

from . import damage, large, small, wild
from .draw import Draw
from .trees import table

SIZE = 1000
# How many batches of each drawn family. All terms of up to three nodes come before them.
DRAWN = {"small": 20, "wild": 60, "near": 60, "damaged": 30, "large": 2}


def wild_table(draw):
    data = table(*wild.script(draw))
    return damage.reordered(draw, data) if draw.chance(.3) else data


def near_table(draw):
    data = table(*damage.near_miss(draw, *wild.script(draw)))
    return damage.reordered(draw, data) if draw.chance(.3) else data


def damaged_table(draw):
    return damage.damaged(draw, table(*wild.script(draw)))


def large_table(draw):
    return table(*large.script(draw))


def small_table(draw):
    return next(small.some(4, 1, draw))


MAKERS = {"small": small_table, "wild": wild_table, "near": near_table, "damaged": damaged_table, "large": large_table}


def every_small():
    for n in (1, 2, 3):
        yield from small.tables(n)


def drawn(family, number):
    draw = Draw(family, number)
    return [MAKERS[family](draw) for _ in range(SIZE)]


def batches():
    """The batches that are stored: (name, tables)."""
    source = every_small()
    for number in itertools.count():
        tables = list(itertools.islice(source, SIZE))
        if not tables:
            break
        yield "every-%d" % number, tables
    for family, count in DRAWN.items():
        for number in range(count):
            yield "%s-%d" % (family, number), drawn(family, number)
