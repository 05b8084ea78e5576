"""All scripts."""
from . import bound, checking, limits, marking, numbered, ordinary, orders, synthesis

ROWS = [row for module in (numbered, marking, checking, synthesis, bound, ordinary, orders, limits) for row in module.ROWS]
