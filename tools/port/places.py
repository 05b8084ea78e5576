#!/usr/bin/env python3
"""Counts, for each point of docs/DESIGN-PASS.md, the places of src/ that the point is about: places.py [-v] [FOLDER of the repository].

It reads text, so a row is a place to look at. -v lists the places. What a row counts stands in the row's name; the page says the rest."""
import collections
import pathlib
import re
import sys

VERBOSE = '-v' in sys.argv[1:]
FOLDERS = [a for a in sys.argv[1:] if not a.startswith('-')]
ROOT = pathlib.Path(FOLDERS[0] if FOLDERS else '.')
FILES = sorted(p for p in ROOT.glob('crates/*/src/**/*.rt'))
TEXT = {p: re.sub(r'//[^\n]*', '', p.read_text()) for p in FILES}


def short(path):
    return str(path.relative_to(ROOT / 'crates')).replace('/src/', '/')


def line(text, at):
    return text.count('\n', 0, at) + 1


def matches(pattern, skip=None):
    """Each match of the pattern, as FILE:LINE: text."""
    found = []
    for path, text in TEXT.items():
        for m in re.finditer(pattern, text, re.M):
            row = text[text.rfind('\n', 0, m.start()) + 1:].split('\n', 1)[0].strip() if m.group(0)[:1] != '\n' else m.group(0).strip()
            if skip is None or not re.search(skip, row):
                found.append(f'{short(path)}:{line(text, m.start())}: {row}')
    return list(dict.fromkeys(found))


def functions():
    """Each function: file, line, name, parameters, head between the parameters and the body, body."""
    for path, text in TEXT.items():
        for m in re.finditer(r'\bfn (\w+)(?:<[^(]*>)?\(([^)]*)\)', text):
            at, depth, clause = m.end(), 0, False
            # The clauses stand between the result and the body; the body begins at a brace that opens a line, or ends the head's line.
            body = re.compile(r'(^\{|(?<=\s)\{)\s*$', re.M).search(text, at)
            first = text.find('{', at)
            if first < 0:
                continue
            if re.search(r'\b(requires|ensures)\b', text[at:first]):
                body = re.compile(r'^\s*\{\s*$', re.M).search(text, at)
                start = body.end() if body else first
            else:
                start = first + 1
            depth, end = 1, start
            while depth and end < len(text):
                depth += {'{': 1, '}': -1}.get(text[end], 0)
                end += 1
            yield path, line(text, m.start()), m.group(1), m.group(2), text[at:start], text[start:end - 1]


def enums():
    for path, text in TEXT.items():
        for m in re.finditer(r'\benum (\w+) \{(.*?)\n\}', text, re.S):
            variants = re.findall(r'^\s*(\w+)(\([^)]*\)|\s*\{[^}]*\})?,', m.group(2), re.M)
            yield f'{short(path)}:{line(text, m.start())}: {m.group(1)}', variants


def shaped():
    """Two variants of which one at the most holds something, or a variant that holds a refusal, or that is full, unknown, nothing."""
    found = []
    for name, variants in enums():
        held = [v for v in variants if v[1]]
        optional = len(variants) == 2 and len(held) == 1
        failing = any(re.search(r'\bRefusal\b', v[1]) or v[0] in ('Full', 'Unknown') for v in variants) and held and len(variants) > 1
        if optional or failing:
            found.append(name + ' { ' + ', '.join(a + b for a, b in variants) + ' }')
    return found


def flagged():
    """A parameter of type bool with a value behind it."""
    return [f'{short(p)}:{n}: {name}({" ".join(ps.split())})' for p, n, name, ps, _, _ in functions() if re.search(r'\w+: bool, *\w+:', ' '.join(ps.split()))]


def twins():
    """Functions of three lines or more whose bodies are alike but for names and numbers."""
    groups = collections.defaultdict(list)
    for path, n, name, _, _, body in functions():
        plain = re.sub(r'\s+', ' ', body).strip()
        if body.strip().count('\n') < 2:
            continue
        shape = re.sub(r'\b[0-9]+\b', '0', re.sub(r'\b[A-Za-z_]\w*\b', lambda m: m.group(0) if m.group(0) in ('let', 'mut', 'match', 'if', 'else', 'return', 'while', 'for', 'in', 'as') else 'x', plain))
        groups[shape].append(f'{short(path)}:{n}: {name}')
    return [' ~ '.join(g) for g in groups.values() if len(g) > 1]


def facts():
    """A fact that stands in the requires of three functions or more."""
    count = collections.Counter()
    for path, n, name, _, head, _ in functions():
        seen = set()
        for m in re.finditer(r'requires\s*\w*\s*\{((?:[^{}]|\{[^{}]*\})*)\}', head):
            for part in m.group(1).split(' × '):
                seen.add(re.sub(r'\.(old|now|new)\b', '', re.sub(r'\s+', ' ', part)).strip(' ()'))
        count.update(seen)
    return [f'{n} times: {fact}' for fact, n in count.most_common() if n >= 3]


def wide():
    """Functions with six parameters or more."""
    return [f'{short(p)}:{n}: {name}: ' + ' '.join(x.split(':')[0].strip() for x in ps.split(',') if ':' in x) for p, n, name, ps, _, _ in functions() if len([x for x in ps.split(',') if ':' in x]) >= 6]


def counted():
    """A slice with a number beside it that says how much of it counts."""
    return [f'{short(p)}:{n}: {name}' for p, n, name, ps, _, _ in functions() if re.search(r'(props: &[^,]*, *count:|work: &[^,]*, *len:|edited: &[^,]*, *size:|room: &mut \[u8\]\) -> (Option<)?usize)', ' '.join((ps + ')').split()) + ' ')] + \
        [f'{short(p)}:{n}: {name} answers how much of its room counts' for p, n, name, ps, head, _ in functions() if 'room: &mut [u8]' in ps and re.search(r'-> (Option<|io::Result<)?usize', head)]


ROWS = [
    ('1  enums of the shape of Option or Result', shaped),
    ('1  constants that number kinds or rules', lambda: matches(r'^\s*pub const [A-Z_]+: u8 = [0-9]+;', r'\b(DEPTH|HEIGHT)\b')),
    ('1  refusals by a bare number', lambda: matches(r'Refusal::(new|at)\(\s*[0-9]+|\bof\(w, [0-9]+, [0-9]+\)|Refusal::at\(of')),
    ('1  functions that tell kinds of records by a bare number', lambda: [f'{short(p)}:{n}: {name}' for p, n, name, _, _, body in functions() if re.search(r'\bkind [=!]= [0-9]|matches!\(\w*kind, [0-9]|match [^{\n]*kind \{\s*[0-9]', body)]),
    ('1  a flag with a value beside it', flagged),
    ('2  groups of functions that differ in names and numbers alone', twins),
    ('2  the same constructor on several types', lambda: matches(r'\bfn from_bytes\b')),
    ('3  loops by while or loop', lambda: matches(r'^\s*(while|loop)\b')),
    ('4  tuple structs compared by their number', lambda: matches(r'\.0 [=!]= [\w:.]+\.0')),
    ('4  conversions to and from numbers by a match', lambda: [f'{short(p)}:{n}: {name}' for p, n, name, ps, head, body in functions() if re.match(r'\s*match \w+ \{(\s*[\w:]+(\([\w]+\))? => (\w+(\.0)?|[\w:]+(\([\w:().]*\))?),)+\s*\}\s*$', body) and (re.search(r'-> (u8|u16|Sort|Purpose|bool)\b', head))]),
    ('4  numbers widened or read by hand', lambda: matches(r'\bwide\(|256 \*|% 256|/ 256')),
    ('4  numbers printed by hand', lambda: matches(r'\b(show::)?(number|spaced)\(out')),
    ('5  facts that three functions or more require', facts),
    ('5  functions with six parameters or more', wide),
    ('6  a slice with its count beside it', counted),
    ('7  switches on what to do next', lambda: [n + ' { ' + ', '.join(a for a, _ in v) + ' }' for n, v in enums() if n.split()[-1] in ('Change', 'Rest', 'Next')]),
]

for name, find in ROWS:
    places = find()
    print(f'{len(places):4}  {name}')
    if VERBOSE:
        for place in places:
            print(f'          {place}')
