"""Large terms and propositions."""


def pairs(leaves):
    return "unit" if leaves == 1 else "(%s, %s)" % (pairs(leaves // 2), pairs(leaves - leaves // 2))


def ands(leaves):
    return "T" if leaves == 1 else "(%s & %s)" % (ands(leaves // 2), ands(leaves - leaves // 2))
