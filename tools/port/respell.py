#!/usr/bin/env python3
"""Spells the repository's own definitions and lemmas as today's Rattle does: words in snake case, theorems that are types in upper camel case.

usage: tools/port/respell.py [--check]      at the top of the repository, once, right after the kit's port.py

A name is ours if specs/ or a lemma file of proofs/ declares it, as a definition, a lemma, a constructor or a field. It turns as a whole word, in .antt and .rt
files, must-fail edits, and code spans of pages; behind a dot in a Proof.antt only if it is a field. Where a file imports the same spelling from the kit, it stays.
It stops if two names of ours would fall together, or a name would meet one that stands already.
"""

import glob
import re
import sys

WORD = r"[^\s(){}.;,@\"«»`]+"
HEAD = re.compile(rf"^ *(?:(?:pub|abbrev|unfoldable|record|data|ruleset) )*((?:(?![-λ]){WORD} )+)(?=(?:[({{][^:=\n]*)?:(?: |$))", re.M)
ALIAS = re.compile(rf"\b({WORD}) as ({WORD})")
USE = re.compile(r"\buse ([^\s;{]+?)\.?(?:\{([^}]*)\})")
OURS = re.compile(r"Rattle\.(?!std\.|core\.|io\.|libc\.|os\.)")
# theorems that are types of specs/; and names that would meet another: a lemma beside the function that it is about, or two things that were told apart by their dash
TOLD = {
    "Demand-3": "Demand3",
    "Demand-3-bytes": "Demand3Bytes",
    "put-entry": "put_entry_lem",
    "put_record": "put_record_lem",
    "goal-at": "place_at_goal",
    "counts_of": "counts_of_mark",
}


def turned(name):
    if name in TOLD:
        return TOLD[name]
    words = name.replace("-", "_")
    if not words[0].isupper():
        words = re.sub(r"(?<=[a-z0-9])([A-Z])(?=[a-z])", lambda m: "_" + m[1].lower(), words)
    return words


def main():
    files = sorted(glob.glob("crates/*/specs/**/*.antt", recursive=True) + glob.glob("crates/*/proofs/**/*.antt", recursive=True))
    texts = {f: open(f, encoding="utf-8").read() for f in files}
    walks = {f for f in files if f.endswith("/Proof.antt")}
    declared, fields = set(), set()
    for f in files:
        if f in walks:
            continue
        for it in HEAD.finditer(texts[f]):
            (fields if it[0][0] == " " else declared).update(it[1].split())
    names = {it for it in declared | fields if turned(it) != it}
    taken = {}
    for it in sorted(declared | fields):
        taken.setdefault(turned(it), []).append(it)
    meet = {new: olds for new, olds in taken.items() if len(olds) > 1}
    if meet:
        print("these would fall together:", meet)
        return 1
    rule = lambda some: re.compile("(?<![\\w'·◌-])(?:" + "|".join(sorted(map(re.escape, some), key=len, reverse=True)) + ")(?![\\w'·◌-])")
    every, after_dot = rule(names), re.compile("(?<!\\.)" + rule(names).pattern)
    only_fields = re.compile(r"(?<=\.)" + rule(names & fields).pattern)
    # Edits and pages were not turned by port.py, so they may have names in either older spelling.
    now = {turned(it) for it in declared | fields}
    any_word = re.compile(WORD)

    def told(m):
        if not re.search(r"[a-zA-Z].*[-A-Z_′]|_.+_", m[0]):
            return m[0]
        new = turned(m[0].replace("′", "'"))
        operator = m[0].replace("_", "◌")
        return new if new in now else operator if operator in now else m[0]

    check = "--check" in sys.argv
    others = sorted(glob.glob("crates/*/src/**/*.rt", recursive=True) + glob.glob("crates/*/must-fail/*.edit"))
    pages = sorted(glob.glob("docs/**/*.md", recursive=True) + ["README.md"])
    changed = 0
    for f in files + others + pages:
        old = texts.get(f) or open(f, encoding="utf-8").read()
        theirs = set()
        for path, items in USE.findall(old):
            if not OURS.match(path):
                theirs.update(re.findall(WORD, items))
        turn = lambda m: m[0] if m[0] in theirs else turned(m[0])
        if f in pages:
            new = re.sub(r"`[^`\n]+`", lambda m: any_word.sub(told, m[0]), old)
        elif f.endswith(".edit"):
            new = any_word.sub(told, old)
        elif f in walks:
            new = only_fields.sub(turn, after_dot.sub(turn, old))
        else:
            new = every.sub(turn, old)
        if new != old:
            changed += 1
            if not check:
                open(f, "w", encoding="utf-8").write(new)
        met = theirs & names
        if met:
            print("stays, being the kit's:", f, sorted(met))
    print(f"{len(names)} names, {changed} files")
    return 0


sys.exit(main())
