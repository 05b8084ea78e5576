"""Tests 2 to 7 of document 01, written down as plainly as they can be, for judging the test tables.

Nothing here is shared with the tools or with the checker, and nothing is done to be quick."""

AND, OR, IMPL, FORALL, EXISTS, ATOM = 2, 3, 4, 5, 6, 7
IDENT, PAIR, FUNCTION, APPLICATION, LET, CASE, UNIT, ASCRIPTION, SORRY = 0, 1, 4, 5, 6, 9, 11, 12, 13


def word(data, at):
    return data[at] + 256 * data[at + 1]


def words(data, start, count):
    return [word(data, start + 2 * i) for i in range(count)]


def answer(data, filling):
    """What the tests say of a file: "passes", or "refused" with the number and the place."""
    if not test2(data):
        return "refused 2 0"
    if not test3(data):
        return "refused 3 0"
    for number, test in ((4, guilty4), (5, guilty5), (6, guilty6), (7, guilty7)):
        guilty = test(Table(data), filling)
        if guilty:
            return "refused %d %d" % (number, min(guilty))
    return "passes"


def test2(data):
    return (len(data) >= 16 and data[0:3] == b"NDT" and data[3] == 0
            and word(data, 4) == 1 and data[12:16] == bytes(4))


def test3(data):
    p, t = word(data, 6), word(data, 8)
    return p <= 1024 and 1 <= t <= 512 and len(data) == 16 + 16 * p + 16 * t


class PropRecord:
    def __init__(self, data):
        self.kind, self.count = data[0], data[1]
        self.a, self.b, self.c = words(data, 2, 3)
        self.parameters = words(data, 8, 4)

    def well_formed(self):
        no_parameters = self.count == 0 and self.parameters == [0, 0, 0, 0]
        if self.kind < AND:
            return no_parameters and self.a == self.b == self.c == 0
        if self.kind in (AND, OR, IMPL):
            return no_parameters and self.c == 0
        if self.kind in (FORALL, EXISTS):
            return no_parameters
        if self.kind == ATOM:
            return self.count <= 4 and self.b == self.c == 0 and not any(self.parameters[self.count:])
        return False

    def links(self):
        if self.kind in (AND, OR, IMPL):
            return [self.a, self.b]
        if self.kind in (FORALL, EXISTS):
            return [self.c]
        return []


class TermRecord:
    def __init__(self, data):
        self.kind, self.tag = data[0], data[1]
        self.type = word(data, 2)
        self.names = words(data, 4, 2)
        self.children = words(data, 8, 3)
        self.zero = word(data, 14)

    def names_used(self):
        return {IDENT: 1, FUNCTION: 1, LET: 2, CASE: 2}.get(self.kind, 0)

    def children_used(self):
        return {IDENT: 0, UNIT: 0, SORRY: 0, PAIR: 2, APPLICATION: 2, LET: 2, CASE: 3}.get(self.kind, 1)

    def well_formed(self):
        tags = {FUNCTION: (0, 1, 2), ASCRIPTION: (1, 2)}.get(self.kind, (0,))
        return (self.kind <= SORRY and self.tag in tags and (self.tag != 0 or self.type == 0)
                and not any(self.names[self.names_used():]) and not any(self.children[self.children_used():])
                and self.zero == 0)

    def links(self):
        return self.children[:self.children_used()]

    def annotations(self):
        """The propositions that it links to."""
        return [self.type] if self.tag == 1 else []


class Table:
    def __init__(self, data):
        p, t = word(data, 6), word(data, 8)
        records = [data[16 + 16 * i:32 + 16 * i] for i in range(p + t)]
        self.expected = word(data, 10)
        self.props = [PropRecord(record) for record in records[:p]]
        self.terms = [TermRecord(record) for record in records[p:]]

    def term_place(self, t):
        """Propositions are counted before terms."""
        return len(self.props) + t


def guilty4(table, filling):
    records = table.props + table.terms
    return [place for place, record in enumerate(records) if not record.well_formed()]


def guilty5(table, filling):
    guilty = []
    if not expected_fits(table, filling):
        guilty.append(0)
    for i, record in enumerate(table.props):
        if not all(link < i for link in record.links()) or prop_namings(table, i) != 1:
            guilty.append(i)
    for i, record in enumerate(table.terms):
        links_good = (all(i < link < len(table.terms) for link in record.links())
                      and all(link < len(table.props) for link in record.annotations()))
        # The root is owed no naming, and whoever names it has a link that goes the wrong way.
        if not links_good or (i != 0 and term_namings(table, i) != 1):
            guilty.append(table.term_place(i))
    return guilty


def expected_fits(table, filling):
    return table.expected == 65535 if filling else table.expected < len(table.props)


def prop_namings(table, number):
    """How often a proposition is named. A filling's expected field is 65,535 and names none."""
    links = [link for record in table.props for link in record.links()]
    links += [link for record in table.terms for link in record.annotations()]
    return links.count(number) + (table.expected == number)


def term_namings(table, number):
    return [link for record in table.terms for link in record.links()].count(number)


def guilty6(table, filling):
    """Links lead to smaller propositions and larger terms by now, so one pass each will do."""
    heights, depths = [], {0: 1}
    for record in table.props:
        heights.append(1 + max([heights[link] for link in record.links()], default=0))
    for i, record in enumerate(table.terms):
        for link in record.links():
            depths[link] = depths[i] + 1
    return ([i for i, height in enumerate(heights) if height > 32]
            + [table.term_place(i) for i, depth in depths.items() if depth > 64])


def guilty7(table, filling):
    if not filling and has_free_name(table, table.expected, []):
        return [table.expected]
    return []


def has_free_name(table, number, bound):
    record = table.props[number]
    if record.kind == ATOM:
        return any(name not in bound for name in record.parameters[:record.count])
    if record.kind in (FORALL, EXISTS):
        bound = bound + [record.a]
    return any(has_free_name(table, link, bound) for link in record.links())
