#!/usr/bin/env python3
"""tests/starred/make.py [--check]: writes crates/starred/specs/Bytes.antt, the files of the starred cases as tools/asm writes them; or says whether it is so."""
import pathlib
import subprocess
import sys

TOP = pathlib.Path(__file__).resolve().parents[2]
WRITTEN = TOP / "crates/starred/specs/Bytes.antt"
NAMES = "".join(f"name {name} {number}\n" for number, name in enumerate("hABxykgzDP", 10))
FILES = [
    ("case_1", "check fun h. h : A -> A"),
    ("case_3", "check fun h. fun h. h : A -> (B -> B)"),
    ("case_3_other", "check fun h. fun h. h : A -> (B -> A)"),
    ("case_4", "check fun x. fun h. (x, h) : all x:D. (P(x) -> ex y:D. P(y))"),
    ("case_6", "check abort unit : A"),
    ("case_9", "check fun h. let (x, k) = h in (x, k) : (ex x:D. P(x)) -> ex y:D. P(y)"),
    ("case_10", "check fun h. h : (all x:D. P(x)) -> all y:D. P(y)"),
    ("case_12", "check fun g. fun z. ((fun x:@D. g x) z) : (all y:D. all x:D. P(y, x)) -> all z:D. all x:D. P(z, x)"),
    ("case_13", "check fun h. sorry : A -> A"),
    ("case_13_unit", "check fun h. unit : A -> A"),
    ("by_h", "filling h"),
    ("by_unit", "filling unit"),
    ("oldest_witness", "check fun x. fun x. fun h. (x, h) : all x:D. all y:D. (P(y) -> ex y:D. P(y))"),
    ("oldest_name", "check fun x. fun x. fun h:[P(x)]. h : all x:D. all y:D. (P(y) -> P(y))"),
    ("left_kept", "check fun h. case h of x. x ; y. x end : A | A -> A"),
    ("left_counted", "check case (sorry : [A | B]) of x. sorry ; y. sorry end : A"),
    ("abort_first", "check fst (abort unit : @D) : A"),
    ("abort_last", "check fst (abort sorry : @D) : A"),
]
HEAD = """\
-- The files of the starred cases and of the marking errors, byte by byte, a record to a line; tests/starred/make.py writes them. The names are 10 h, 11 A,
-- 12 B, 13 x, 14 y, 15 k, 16 g, 17 z, 18 D, 19 P. `case_1` is the table of docs/FORMAT.md, section 9. Assumes nothing.
use Rattle.std.specs.Prelude.{List, [], ◌∷◌, ℕ}
"""


def assembled(script):
    command = [TOP / "tools/asm", "-q", "-o", "/dev/stdout"]
    return subprocess.run(command, input=f"{NAMES}{script}\n".encode(), stdout=subprocess.PIPE, check=True).stdout


def definition(name, script):
    table = assembled(script)
    records = [" ∷ ".join(map(str, table[i : i + 16])) for i in range(0, len(table), 16)]
    return f"\n-- {script}\nunfoldable pub {name} : List ℕ\n{name} =\n    " + "\n    ∷ ".join(records) + "\n    ∷ []\n"


def main():
    text = HEAD + "".join(definition(name, script) for name, script in FILES)
    if sys.argv[1:] == ["--check"]:
        if WRITTEN.read_text() != text:
            sys.exit(f"{WRITTEN.relative_to(TOP)} is not what tests/starred/make.py writes")
        print(f"{len(FILES)} files of starred cases")
    elif not sys.argv[1:]:
        WRITTEN.write_text(text)
    else:
        sys.exit(__doc__)


if __name__ == "__main__":
    main()
