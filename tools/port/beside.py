#!/usr/bin/env python3
"""Lists what two checkouts of this repository say differently, old and new beside one another: beside.py OLD NEW.

In this order: types, traits and constants of src/ with their ghost members; signatures and clauses of functions; definitions of specs/, with the heads of
modules; and whole statements in proofs/ that README or docs/ name. Comments, bodies and `use` lines are left out."""
import difflib
import pathlib
import re
import sys

OLD, NEW = (pathlib.Path(a) for a in sys.argv[1:3])
KEYWORDS = {'pub', 'abbrev', 'unfoldable', 'record', 'data'}


def sources(root):
    for path in sorted(root.glob('crates/*/src/**/*.rt')):
        crate = path.relative_to(root / 'crates').parts[0]
        yield crate, path, re.sub(r'^\s*//[^\n]*\n', '', path.read_text(), flags=re.M)


def flat(text):
    return re.sub(r'\s+', ' ', text).strip().replace('( ', '(').replace(',)', ')').replace(', )', ')')


def close(text, k):
    """Where the brace that opens at k closes."""
    depth = 0
    for i in range(k, len(text)):
        depth += {'{': 1, '}': -1}.get(text[i], 0)
        if depth == 0:
            return i
    return len(text)


def types(root):
    """Structs, enums, traits without their functions, constants, and the ghost members of impls."""
    found = {}
    for crate, path, text in sources(root):
        for m in re.finditer(r'^((?:#\[derive[^\n]*\n)?(?:pub )?(?:struct|enum) (\w+)[^;{(]*)([;{(])', text, re.M):
            end = text.index(';', m.end() - 1) if m.group(3) in ';(' else close(text, m.end() - 1)
            found[crate, path.name, m.group(2)] = flat(text[m.start():end + 1])
        for m in re.finditer(r'^((?:pub )?trait (\w+)[^{]*|impl(?:<[^>]*>)? [^{]* for [^{]*)\{', text, re.M):
            body = text[m.end():close(text, m.end() - 1)]
            ghosts = [flat(g) for g in re.findall(r'^\s*(?:pub )?ghost \w+[^\n]*;', body, re.M)]
            found[crate, path.name, flat(m.group(1))] = ' '.join([flat(m.group(1))] + ghosts)
        for m in re.finditer(r'^\s*((?:pub )?const (\w+): .*?;)$', text, re.M | re.S):
            found[crate, path.name, 'const ' + m.group(2)] = flat(m.group(1))
    return found


def functions(root):
    found = {}
    for crate, path, text in sources(root):
        owner = ''
        for m in re.finditer(r'^(\s*)((?:pub )?(?:extern "C" )?)fn (\w+)|^(?:pub )?(?:impl(?:<[^>]*>)?|trait) ([^\n{]*)\{|^\}', text, re.M):
            if m.group(3) is None:
                owner = flat(m.group(4) or '')
                continue
            depth, k = 0, m.end()
            while k < len(text):
                c = text[k]
                if c in '([':
                    depth += 1
                elif c in ')]':
                    depth -= 1
                elif depth == 0 and c in ';{':
                    if c == ';' or not re.search(r'\b(requires|ensures)\b[^{};]*$', text[m.end():k]):
                        break
                    k = close(text, k)
                k += 1
            inside = m.group(1).strip('\n') != ''
            found[crate, path.name, (owner + ': ' if inside and owner else '') + m.group(3)] = flat(text[m.start(2):k])
    return found


def definitions(root, folder):
    found = {}
    for path in sorted(root.glob(f'crates/*/{folder}/**/*.antt')):
        if folder == 'proofs' and path.name in ('Answers.antt', 'Invariants.antt', 'Proof.antt'):
            continue
        crate = path.relative_to(root / 'crates').parts[0]
        name, lines = None, []
        for row in path.read_text().split('\n') + ['']:
            row = row.rstrip()
            words = row.split()
            if not words or words[0].startswith('--') or words[0] == 'use' or words[:2] == ['pub', 'use'] or words[0] == 'unfolding':
                continue
            indent = len(row) - len(row.lstrip())
            start = [w for w in words if w not in KEYWORDS]
            of_record = lines and re.match(r'\s*(pub )?(record|data) ', lines[0])
            declares = words[0] == 'module' or indent in (0, 2) and len(start) > 1 and (start[1] == ':' or 'record' in words[:3] or 'data' in words[:3]) and not (indent == 2 and of_record and not lines[0].startswith('  '))
            if declares:
                if name:
                    found.setdefault((crate, name), []).extend(lines)
                name, lines = (path.stem + ' module' if words[0] == 'module' else start[0]), [row]
            elif name:
                lines.append(row)
        if name:
            found.setdefault((crate, name), []).extend(lines)
    return found


def statement(lines):
    """What a lemma says: its lines up to the first that defines it."""
    kept = []
    for k, row in enumerate(lines):
        if k and (re.match(r'\s*' + re.escape(lines[0].split()[1 if lines[0].split()[0] == 'pub' else 0]) + r'\b.* = ', row) or re.search(r' =$| = ', row)):
            break
        kept.append(row)
    return ' '.join(' '.join(kept).split())


def both(title, old, new):
    print(f'### {title}\n\n```diff')
    for key in sorted(set(old) | set(new)):
        a, b = old.get(key), new.get(key)
        if a == b:
            continue
        print('@@', ' '.join(key))
        for sign, side in (('-', a), ('+', b)):
            if side:
                print(sign, side)
    print('```\n')


def main():
    both('Types, traits and constants', types(OLD), types(NEW))
    both('Functions', functions(OLD), functions(NEW))
    print('### Definitions of specs/\n\n```diff')
    old, new = definitions(OLD, 'specs'), definitions(NEW, 'specs')
    for key in sorted(set(old) | set(new)):
        a, b = ([' '.join(x.split()) for x in side.get(key, [])] for side in (old, new))
        if a != b:
            print('@@', ' '.join(key))
            for row in difflib.ndiff(a, b):
                if row[0] in '-+':
                    print(row)
    print('```\n\n### Statements of proofs/ that README or docs/ name\n\n```diff')
    pages = '\n'.join(p.read_text() for top in (OLD, NEW) for p in [top / 'README.md'] + sorted((top / 'docs').glob('**/*.md')) if p.name not in ('PORT.md', 'DESIGN-PASS.md'))
    named = set(re.findall(r'`(?:\w+\.)*([^`\s.]+)`', pages))
    old, new = definitions(OLD, 'proofs'), definitions(NEW, 'proofs')
    for key in sorted(set(old) | set(new)):
        if key[1] in named:
            a, b = (statement(side[key]) if key in side else None for side in (old, new))
            if a != b:
                print('@@', ' '.join(key))
                for sign, side in (('-', a), ('+', b)):
                    if side:
                        print(sign, side)
    print('```')


main()
