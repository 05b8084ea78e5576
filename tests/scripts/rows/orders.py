"""Records in other lawful orders, and tables that the entry refuses before any rule."""
from .row import row, written

CASE_1 = "check fun h. h : A -> A"

ROWS = [
    written("a pair's second child stands first",
            ("header props 3 terms 3 expected 2", "prop True", "prop True", "prop And a 0 b 1", "term Pair child1 2 child2 1", "term Unit", "term Unit"),
            "accepted 3 0", "2 0 - - 2 | T & T", "1 2 - - 0 | T", "1 1 - - 0 | T", "counts serials 0 made 0"),
    written("goals go by the subterms, not by their numbers",
            ("header props 3 terms 3 expected 2", "prop True", "prop False", "prop And a 1 b 0", "term Pair child1 2 child2 1", "term Sorry", "term Sorry"),
            "accepted 3 2", "2 0 - - 2 | F & T", "15 2 - - 0 | F", "15 1 - - 0 | T", "goal 2 0 | F", "goal 1 0 | T", "counts serials 0 made 0"),
    written("an application's argument stands before its function",
            ("header props 2 terms 5 expected 0", "prop True", "prop True", "term Application child1 2 child2 1", "term Unit",
             "term Function tag 1 type 1 name1 10 child1 3", "term TypeAscription tag 2 type 9 child1 4", "term Ident name1 10"),
            "refused 14 4"),
    written("the expected proposition stands below an annotation",
            ("header props 2 terms 2 expected 0", "prop True", "prop True", "term TypeAscription tag 1 type 1 child1 1", "term Unit"),
            "accepted 1 0", "1 1 - - 0 | T", "counts serials 0 made 1"),
    written("a byte short", (CASE_1, "drop 1"), "refused 3 0"),
    written("a byte over", (CASE_1, "bytes 0"), "refused 3 0"),
    written("longer than the room into which programs read", (CASE_1, "bytes" + " 0" * 65537), "refused 3 0"),
    written("no header", ("bytes 78 68 84 0",), "refused 2 0"),
    written("another mark", (CASE_1, "set byte 2 85"), "refused 2 0"),
    written("another version", (CASE_1, "set header version 2"), "refused 2 0"),
    written("an unknown kind of term", (CASE_1, "set term 0 kind 14"), "refused 4 3"),
    written("an unknown kind of proposition", (CASE_1, "set prop 0 kind 8"), "refused 4 0"),
    written("the root names itself", (CASE_1, "set term 0 child1 0"), "refused 5 3"),
    written("a filling", ("filling fun h. h",), "refused 5 0"),
    row("a free name in what is expected", "sorry : A & P(z)", "refused 7 2"),
    row("a name that is free outside its quantifier", "sorry : (all z:D. P(z)) -> P(z)", "refused 7 3"),
    row("31 quantifiers", "sorry : " + "all x:D. " * 31 + "P(x)", "accepted 1 1", "goal 0 0 | " + "all x:D. " * 31 + "P(x)", "counts serials 0 made 0"),
    row("32 quantifiers", "sorry : " + "all x:D. " * 32 + "P(x)", "refused 6 32"),
]
