"""Texts of large terms and propositions."""


def pairs(leaves):
    """A balanced term with so many leaves, and one record fewer than twice as many."""
    return "unit" if leaves == 1 else "(%s, %s)" % (pairs(leaves // 2), pairs(leaves - leaves // 2))


def ands(leaves):
    """A balanced proposition with so many leaves, and one record fewer than twice as many."""
    return "T" if leaves == 1 else "(%s & %s)" % (ands(leaves // 2), ands(leaves - leaves // 2))


# 512 leaves make 1,023 records, and a quantifier one more; 256 leaves make 511 terms, and an ascription one more.
FULL_PROP = "all x:D. " + ands(512)
FULL_TERM = "(%s : @D)" % pairs(256)
LARGEST = "check %s : %s" % (FULL_TERM, FULL_PROP)


def wrapped(before, inside, after, times):
    return before * times + inside + after * times
