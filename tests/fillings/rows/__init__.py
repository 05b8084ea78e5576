"""All fillings."""
from . import limits, made, moved, numbered, places, rules, tables

ROWS = [row for module in (numbered, places, rules, moved, tables, limits, made) for row in module.ROWS]
