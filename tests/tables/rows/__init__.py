"""The test tables, with answers worked out by hand from document 01."""
from . import damages, good, header, links, names, order, records, sizes

ROWS = [row for part in (good, header, records, links, sizes, names, order, damages) for row in part.ROWS]
