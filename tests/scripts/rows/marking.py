"""The marking errors to shut out."""
from .row import row

ROWS = [
    row("marking error 1", "fun h. case h of x. inr x ; y. inl x end : (A | B) -> (B | A)", "refused 20 6"),
    row("marking error 2", "fun h. case h of x. inr x ; x. inl x end : (A | B) -> (B | A)",
        "accepted 7 0", "5 0 0 - 1", "9 1 1 2 3 | B | A", "0 2 0 - 0 | A | B", "8 3 - - 1", "0 4 1 - 0 | A", "7 5 - - 1", "0 6 2 - 0 | B",
        "counts serials 3 made 0"),
    row("marking error 3", "fst (abort unit : @D) : A", "refused 11 3"),
    row("marking error 4", "fst (abort (sorry : [F]) : @D) : A", "refused 13 2"),
    row("marking error 5", "fun h. fst (case h of x. (x, unit) ; y. (x, unit) end) : A | A -> A", "refused 20 8"),
    row("marking error 6", "fun x. fun h. fst (case h of y. (x, unit) ; x. (x, unit) end) : A -> A | A -> A",
        "accepted 11 0", "5 0 0 - 1", "5 1 1 - 1", "3 2 - - 1", "9 3 2 3 3", "0 4 1 - 0", "2 5 - - 2", "0 6 0 - 0", "1 7 - - 0", "2 8 - - 2", "0 9 3 - 0",
        "1 10 - - 0", "counts serials 4 made 4"),
]
