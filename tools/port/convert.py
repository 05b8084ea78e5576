#!/usr/bin/env python3
"""Turns the Proof.antt files of a crate, which walk the code, to Invariants.antt and Answers.antt.

usage: tools/port/convert.py CRATE NAMES [--only PART]     at the top of the repository; NAMES is the names.json that `rt check --generated DIR --old-names` writes

The needs of an old proof and the goals of today stand in one order, so the n-th need's answer becomes the n-th goal's. A path through the steps before loses its
`.before`s, and a step gets today's name. An answer that is only a search is left out: the check searches by itself. What it cannot turn it says.
"""

import difflib
import json
import os
import re
import sys

NAME = r"[^\s(){}.;,@\"«»]+"


def blocks(text):
    """The `use` lines, and the declarations with what precedes them."""
    uses, out, block = [], [], []
    for line in text.split("\n"):
        if line.startswith("use ") or line.startswith("pub use "):
            uses.append(line)
        elif line and not line[0].isspace() and re.match(rf"(?:abbrev |pub |unfoldable )*{NAME} *(?:[({{].*)?: ", line) and not line.startswith("--"):
            # a signature begins a new block; comments right above go with it
            keep = []
            while block and block[-1].startswith("--"):
                keep.insert(0, block.pop())
            out.append(block)
            block = keep + [line]
        else:
            block.append(line)
    out.append(block)
    return uses, [b for b in out if any(x.strip() for x in b)]


def norm(name):
    return re.sub(r"[-_]", "_", name)


class Turn:
    """Turns paths for a goal at a place: nearer steps hide farther ones of the same old name."""

    def __init__(self, entry, place=None):
        self.steps, self.callee, self.arms = {}, {}, []
        at = {p[0]: k for k, p in enumerate(entry["places"])}
        chain = []
        if place is None or place not in at:
            chain = list(range(len(at)))
        else:
            k = at[place]
            while k is not None:
                chain.append(k)
                k = at.get(entry["places"][k][1])
        for k in chain:
            _, _, (old, new), callee, _ = entry["places"][k]
            if not old:
                continue
            arm = entry["arms"][k]
            if arm:
                for field, of, was in arm[2]:
                    self.arms.append((of, ".".join(was), arm[0], field))
            self.steps.setdefault(norm(old), new)
            if callee:
                self.callee.setdefault(new, callee)
        self.arms.sort(key=lambda a: not a[1])
        self.pre = (entry["pre"] or {}).get("fields") or []
        self.args = {}
        for old, new in entry["args"]:
            if old.startswith(".args ."):
                self.args[old[len(".args ."):]] = new[len(".args ."):]
        self.params = entry["params"]
        self.loops = entry["loops"]

    def clause(self, m):
        """A field of a nested tuple of clauses, by the clause's name."""
        at, k = re.findall("[01]", m[2]), 0
        if not at:
            return m[0]
        while k < len(self.pre) - 1 and at and at[0] == "1":
            at.pop(0)
            k += 1
        if k < len(self.pre) - 1:
            if not at:
                return m[0]
            at.pop(0)
        return f"{m[1]}.{self.pre[k]}" + "".join("." + i for i in at)

    def path(self, text):
        text = re.sub(r"(?:\.before)+(?=[.\s),;])", "", text)
        text = re.sub(r"(\bc)\.before\b", r"\1", text)

        def step(m):
            name = m[1]
            new = self.steps.get(norm(name))
            return "." + new if new and not re.fullmatch(r".*-1", new) else m[0]

        for of, was, arm, field in self.arms:
            text = re.sub(r"\." + re.sub("[-_]", "[-_]", of) + (rf"\.{re.escape(was)}" if was else r"(?=\.rest)") + r"(?![\w'-])", f".{arm}.{field}", text)
        text = re.sub(rf"\.({NAME})", step, text)
        for old, new in self.args.items():
            text = re.sub(rf"(?<=\.){re.escape(old)}(?![\w'-])", new, text)
            text = text.replace("args." + old, "args." + new)

        # .new.1.1.0 and .auto.1.0 of a call, by the callee's parameters
        def param(m):
            names = self.params.get(self.callee.get(m[1], ""), None)
            k = m[3].count(".1")
            if names is None or k >= len(names):
                return m[0]
            return f".{m[1]}.{m[2]}.{names[k]}"

        text = re.sub(rf"\.({NAME})\.(new|auto)((?:\.1)*)\.0(?![\w.])", param, text)
        text = re.sub(rf"\.({NAME})\.(new|auto)((?:\.1)*)\.0(?=\.)", param, text)
        if self.pre:
            heads = [r"\.requires"] + [rf"(?<![\w'.-]){re.escape(x)}" for x in re.findall(rf"let ({NAME}) = (?:{NAME}\.)*requires in", text)]
            for head in heads:
                text = re.sub(rf"({head})((?:\.[01])*)(?![\w'-])", self.clause, text)
        for alias, of in re.findall(rf"let ({NAME}) = (?:{NAME}\.)+({NAME}) in", text):
            names = self.params.get(self.callee.get(of, ""), [])

            def of_alias(m):
                k = m[2].count(".1")
                return f"{alias}.{m[1]}.{names[k]}" if k < len(names) else m[0]

            text = re.sub(rf"(?<![\w'.-]){re.escape(alias)}\.(new|auto)((?:\.1)*)\.0(?![\w'])", of_alias, text)
        text = re.sub(r"\.given\.1(?!\.)", ".is", text)
        text = text.replace(".last.", ".new.").replace(".kept.", ".auto.")
        return text


def commas(text):
    parts, depth, last = [], 0, 0
    for i, ch in enumerate(text):
        depth += (ch in "({[") - (ch in ")}]")
        if ch == "," and depth == 0:
            parts.append(text[last:i].strip())
            last = i + 1
    return parts + [text[last:].strip()] * bool(text[last:].strip())


def taken_apart(goal, text, fields):
    """A lemma's tuple, field by field."""
    depth, at = 0, None
    for m in re.finditer(r"[({\[]|[)}\]]|(?<= )in(?=\s)|(?<= )=(?=\s)", text):
        depth += (m[0] in "({[") - (m[0] in ")}]")
        if depth == 0 and (m[0] == "in" or m[0] == "=" and at is None):
            at = m.end()
    last = text[at:].strip()
    if "search" == last[:6]:
        return f"{goal}: a search for {fields}"
    places = [".1" * k + (".0" if k + 1 < len(fields) else "") for k in range(len(fields))]
    rec = "record { " + "; ".join(f"{f} = all{p}" for f, p in zip(fields, places)) + " }"
    return [(goal, text[:at] + f"\n    let all = {last} in\n    {rec}")]


def split(goal, whole, fields):
    """A tuple for a `requires` of several clauses, as an answer for each clause; what a search finds is left to the check."""
    if not fields:
        return None
    text = whole.rstrip()
    if not text.endswith(")"):
        return taken_apart(goal, text, fields)
    depth, at = 0, None
    for i in range(len(text) - 1, -1, -1):
        depth += (text[i] in ")}") - (text[i] in "({")
        if depth == 0:
            at = i
            break
    head, tuple_ = text[:at], text[at + 1 : -1]
    if not re.search(r"(?:=|\bin)\s*$", head):
        return taken_apart(goal, text, fields)
    parts = commas(tuple_)
    while len(parts) < len(fields) and parts[-1].startswith("("):
        more = commas(parts[-1][1:-1])
        if len(more) < 2:
            break
        parts[-1:] = more
    if len(parts) > len(fields):
        parts = parts[: len(fields) - 1] + ["(" + ", ".join(parts[len(fields) - 1 :]) + ")"]
    if len(parts) != len(fields):
        return f"{goal}: {len(parts)} parts for {fields}"
    out = []
    for f, t in zip(fields, parts):
        if t == "search rules":
            continue
        name = f"{goal}-clause-{f}"
        h = re.sub(rf"^{re.escape(goal)} (t )?c =", rf"{name} \1c =", head, flags=re.M)
        out.append((name, h + t))
    return out


def main():
    crate, names = sys.argv[1], json.load(open(sys.argv[2]))
    only = sys.argv[sys.argv.index("--only") + 1] if "--only" in sys.argv else ""
    top = os.path.join("crates", crate, "proofs")
    for folder, _, files in sorted(os.walk(top)):
        if "Proof.antt" not in files or only not in folder:
            continue
        f = os.path.join(folder, "Proof.antt")
        path = os.path.relpath(folder, top).replace(os.sep, ".")
        cycle = os.path.basename(folder).startswith("+")
        entry = names.get(f"Rattle-{crate}-proofs.{path}.Lts" + ("-" + os.path.basename(folder)[1:] if cycle else ""))
        if entry is None:
            print(f"{f}: no names")
            continue
        text = open(f, encoding="utf-8").read()
        uses, decls = blocks(text)
        uses = [u for u in uses if not re.search(r"\.Tie\b|\.Statement\b|\.\{statement\}|\.(?:Reads|Kinds) as |\.Lts-\S+ as |borrow\.Fn\.", u)]
        word = "lts.spec" if cycle else "tie.spec"
        spec = next((b for b in decls if any(word in l for l in b)), None)
        if spec is None:
            print(f"{f}: no spec that it can read")
            continue
        if cycle:
            # (claims t) (at t) f.Post, then as elsewhere, each with its t
            args = re.sub(r"\((\S+) t\)", r"\1", "\n".join(spec).split(word, 1)[1]).replace(")", " ").split()[3:]
        else:
            args = "\n".join(spec).split(word, 1)[1].replace(")", " ").split()
        at_t = "t " if cycle else ""
        turn = Turn(entry)
        made = {}
        plain, invs, answers, said = [], [], [], []
        count = 2 * len(entry["loops"])
        holds = args[:count]
        needs = args[count:]
        if len(needs) != len(entry["needs"]):
            same = difflib.SequenceMatcher(None, [norm(n) for n in needs], [norm(n[0]) for n in entry["needs"]], autojunk=False)
            kept = [k for m in same.get_matching_blocks() for k in range(m.a, m.a + m.size)]
            said.append(f"{len(needs)} answers, {len(entry['needs'])} goals; gone: " + " ".join(n for k, n in enumerate(needs) if k not in kept))
            if len(kept) == len(entry["needs"]):
                gone = [n for k, n in enumerate(needs) if k not in kept]
                needs = [needs[k] for k in kept]
                decls = [b for b in decls if not any(re.match(rf"{re.escape(g)} :", l) for g in gone for l in b)]
        goal_of = dict(zip(needs, [n[1] for n in entry["needs"]]))
        old_of = dict(zip(needs, [n[0] for n in entry["needs"]]))
        place_of = dict(zip(needs, [a[0] for a in entry["asked_at"]]))
        for b in decls:
            if b is spec or cycle and any(re.match(r"(?:abbrev )?(?:\S+[-_])?(?:μ\S*|at|below|claims) : ", l) for l in b):
                continue
            i = next(k for k, l in enumerate(b) if l and not l.startswith("--"))
            sig = b[i]
            name = re.match(rf"(?:abbrev |pub |unfoldable )*({NAME})", sig)[1]
            comments = [l for l in b[:i] if l.startswith("--")]
            body = b[i + 1 :]
            while body and not body[-1].strip():
                body.pop()
            if name in holds:
                k = holds.index(name)
                (old, new), live = entry["loops"][k // 2]
                changed = entry["changed"][k // 2]
                kind = "invariant" if k % 2 == 0 else "decreases"
                whole = "\n".join(body)
                m = re.match(rf"{re.escape(name)} (.*?) ?=(\s.*)$", whole, re.S)
                if not m:
                    said.append(f"{name}: no clause that it can read")
                    continue
                params = m[1].split()
                now = [v for v, ch in zip(live, changed) if ch]
                olds = params[: len(live)]
                news = params[len(live) :]
                if len(params) != len(live) + len(now):
                    said.append(f"{name}: {params} for {live} and {now}")
                to = {}
                for p, v, ch in zip(olds, live, changed):
                    to[p] = f"l.initial.{v}" if ch else f"l.{v}"
                for p, v in zip(news, now):
                    to[p] = f"l.{v}"
                text2 = re.sub(rf"(?<![.\w'])({NAME})", lambda m: to.get(m[1], m[1]), m[2])
                invs.append("\n".join(comments + [f"abbrev pub {kind}-{new} : goal.{kind}-{new}", f"{kind}-{new} l ={turn.path(text2)}"]))
            elif name in goal_of:
                new = goal_of[name]
                whole = "\n".join(body)
                short = re.sub(r"\s+", " ", whole)
                if re.fullmatch(rf"{re.escape(name)} {at_t}c(?: κs)? = search rules", short):
                    continue
                whole = re.sub(rf"^{re.escape(name)} {at_t}c(?: κs)? =", f"{new} {at_t}c =", whole, flags=re.M)
                if cycle:
                    whole = re.sub(r"\.requires\.0(?![\w'.])", ".decreases", whole)
                    whole = re.sub(r"\.requires\.1", ".requires", whole)
                whole = Turn(entry, place_of.get(name)).path(whole)
                parts = split(new, whole, entry["asked"].get(old_of[name]) or entry["asked"].get(new))
                if isinstance(parts, str):
                    said.append(parts)
                    parts = None
                if parts is None:
                    answers.append("\n".join(comments + [f"pub {new} : goal.{new}", whole]))
                for n, text2 in parts or []:
                    answers.append("\n".join(comments + [f"pub {n} : goal.{n}", text2]))
            else:
                plain.append((name, "\n".join(b)))
                if "tie." in "\n".join(b):
                    said.append(f"{name}: speaks of a place")
        measure = re.search(r"^μ\S* κs a = a((?:\.1)*)\.0(\S*)$", text, re.M) if cycle else None
        if measure:
            f_name = os.path.basename(folder)[1:]
            own = next((p for c, p in entry["params"].items() if c.split("::")[-1] == f_name), [])
            invs.append(f"abbrev pub decreases-{f_name} : goal.decreases-{f_name}\ndecreases-{f_name} l = l.{own[measure[1].count('.1')]}{measure[2]}")
        module = f"Rattle.{crate}.proofs.{path}"
        # helpers go with whoever uses them
        for what, which, items in (("Invariants", "Given", invs), ("Answers", "Goals", answers)):
            if not items:
                continue
            helpers = [turn.path(t) for n, t in plain if "tie." not in t and (re.search(rf"(?<![\w'-]){re.escape(n)}(?![\w'-])", "\n".join(items)) or what == "Answers")]
            odd = [turn.path(t) for n, t in plain if "tie." in t] if what == "Answers" else []
            text = "\n".join(uses + [f"use {module}.{which} as goal"]) + "\n\n" + "\n\n".join(x.rstrip() for x in helpers + odd + items) + "\n"
            open(os.path.join(folder, what + ".antt"), "w", encoding="utf-8").write(text)
        os.rename(f, f + ".old")
        if said:
            print(f"{f}: " + "; ".join(said))
    return 0


sys.exit(main())
