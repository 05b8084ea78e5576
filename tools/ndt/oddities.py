"""What is odd about a table: all of it, record by record, where the tests 2 to 6 name the first fault only."""
from collections import Counter, defaultdict

from . import layout

HEADER = ("header", 0)


class Oddities:
    """Remarks on the header and on each record of a file that has a header."""

    def __init__(self, data):
        self.data, self.parts = data, layout.cut(data)
        self.remarks = defaultdict(list)
        self.named = Counter()
        self.look_at_header()
        for sort, records in (("prop", self.parts.props), ("term", self.parts.terms)):
            for number, record in enumerate(records):
                self.look_at_record(sort, number, record)
        self.look_at_namings()
        self.look_at_heights()
        self.look_at_depths()

    def say(self, place, text):
        self.remarks[place].append(text)

    def look_at_header(self):
        head = self.parts.header
        for at, byte in zeros_and_mark():
            if self.data[at] != byte:
                self.say(HEADER, "byte %d is not 0x%02x" % (at, byte))
        if head["version"] != layout.VERSION:
            self.say(HEADER, "version is not %d" % layout.VERSION)
        if head["props"] > layout.MOST_PROPS:
            self.say(HEADER, "more than %d props" % layout.MOST_PROPS)
        if not 1 <= head["terms"] <= layout.MOST_TERMS:
            self.say(HEADER, "terms are not 1 to %d" % layout.MOST_TERMS)
        due = layout.SIZE * (1 + head["props"] + head["terms"])
        if len(self.data) != due:
            self.say(HEADER, "%d bytes where %d are due" % (len(self.data), due))
        if head["expected"] != layout.NONE:
            self.look_at_link(HEADER, "expected", head["expected"], "prop", self.parts.props)

    def look_at_record(self, sort, number, record):
        place, shape = (sort, number), layout.SORTS[sort]
        if record["kind"] >= len(shape.kinds):
            self.say(place, "no such kind")
            return
        kind = shape.kinds[record["kind"]]
        used = {"kind", *kind.names, *kind.links}
        used |= self.used_by_prop(place, kind, record) if sort == "prop" else self.used_by_term(place, kind, record)
        for field, value in record.items():
            if value and field not in used:
                self.say(place, "%s is not used" % field)
        self.look_at_links(place, kind, record)

    def used_by_prop(self, place, kind, record):
        """An atom's own fields."""
        if kind.word != "Atom":
            return set()
        if record["count"] > len(layout.PARAMETERS):
            self.say(place, "count is over %d" % len(layout.PARAMETERS))
        return {"count", *layout.PARAMETERS[:record["count"]]}

    def used_by_term(self, place, kind, record):
        """An annotation's fields."""
        if kind.word not in layout.TAGS:
            return set()
        if record["tag"] not in layout.TAGS[kind.word]:
            self.say(place, "no such tag")
        return {"tag"} if record["tag"] == layout.NO_TYPE else {"tag", "type"}

    def look_at_links(self, place, kind, record):
        sort, number = place
        records = self.parts.props if sort == "prop" else self.parts.terms
        for field in kind.links:
            target = record[field]
            self.look_at_link(place, field, target, sort, records)
            if target < len(records) and not right_way(sort, number, target):
                self.say(place, "%s goes the wrong way" % field)
        if kind.word in layout.TAGS and record["tag"] == layout.PROP_TYPE:
            self.look_at_link(place, "type", record["type"], "prop", self.parts.props)

    def look_at_link(self, place, field, target, sort, records):
        if target < len(records):
            self.named[sort, target] += 1
        else:
            self.say(place, "%s is out of range" % field)

    def look_at_namings(self):
        places = [("prop", number) for number in range(len(self.parts.props))]
        places += [("term", number) for number in range(1, len(self.parts.terms))]
        for place in places:
            if self.named[place] != 1:
                self.say(place, "named %d times" % self.named[place])

    def look_at_heights(self):
        heights = []
        for number, record in enumerate(self.parts.props):
            below = [heights[child] for child in good_links("prop", number, record, self.parts.props)]
            heights.append(1 + max(below, default=0))
            if heights[-1] > layout.MOST_HEIGHT:
                self.say(("prop", number), "height is over %d" % layout.MOST_HEIGHT)

    def look_at_depths(self):
        depths = [1] * len(self.parts.terms)
        for number, record in enumerate(self.parts.terms):
            if depths[number] > layout.MOST_DEPTH:
                self.say(("term", number), "depth is over %d" % layout.MOST_DEPTH)
            for child in good_links("term", number, record, self.parts.terms):
                depths[child] = max(depths[child], depths[number] + 1)


def zeros_and_mark():
    """The header's bytes that are always the same, with what they are. The version is a field and left out."""
    return [*enumerate(layout.MARK), *((at, 0) for at in range(12, layout.SIZE))]


def right_way(sort, number, target):
    return target < number if sort == "prop" else target > number


def good_links(sort, number, record, records):
    """The links of a record that lead on towards the leaves, whatever else is wrong with it."""
    kinds = layout.SORTS[sort].kinds
    links = kinds[record["kind"]].links if record["kind"] < len(kinds) else ()
    return [record[field] for field in links
            if record[field] < len(records) and right_way(sort, number, record[field])]
