#!/usr/bin/env python3
"""How long `text` takes for the largest texts of each kind, at a quarter, a half and all of 65,536 bytes.

usage: bench/parse.py BINARY [RUNS]

Prints for each kind the least time of a run in milliseconds at the three lengths, less that of an
empty specification. A text with rules or constraints is parsed and then refused, one without is
printed too. Time that grows with the length and no faster shows the parser to be linear.
"""

import sys

from timing import Timer

HEAD = "version 1;order little;"


def filled(before, piece, after, length):
    """Pieces up to the length, with blanks behind them."""
    count = (length - len(before) - len(after)) // len(piece)
    text = before + piece * count + after
    return text + " " * (length - len(text))


FORMULA = "a in A" + " and a in A" * 127
KINDS = {
    "blanks": lambda n: filled(HEAD, " ", "", n),
    "comment": lambda n: filled(HEAD + "#", "x", "", n),
    "fields": lambda n: filled(HEAD + "structure Head{", "u8 a;", "}", n),
    "structures": lambda n: filled(HEAD, "structure S{}", "", n),
    "expressions": lambda n: filled(HEAD + "structure Head{", "skip 1" + "+1" * 32 + ";", "}", n),
    "parentheses": lambda n: filled(HEAD + "structure Head{", "skip " + "(" * 32 + "1" + ")" * 32 + ";", "}", n),
    "sets": lambda n: filled(HEAD, "set A of p;", "", n),
    "supply": lambda n: filled(HEAD + "fresh p avoid A", ",A", ";", n),
    "rules": lambda n: filled(HEAD, "rule x in A when legal(x.f) and x.g=1=>x in B;", "", n),
    "guards": lambda n: filled(HEAD + "rule x in A when x.g=1", " and x.g=1", "=>x in B;", n),
    "constraints": lambda n: filled(HEAD, "constraint c:a in A;", "", n),
    "long formulas": lambda n: filled(HEAD, "constraint c:" + FORMULA + ";", "", n),
    "nested formulas": lambda n: filled(HEAD, "constraint c:" + "(" * 32 + "a in A" + ")" * 32 + ";", "", n),
}


def main():
    with Timer(sys.argv) as timer:
        empty = timer.milliseconds(HEAD)
        print(f"{'empty':16} {empty:8.2f}")
        for kind, make in KINDS.items():
            times = [timer.milliseconds(make(n)) - empty for n in (16384, 32768, 65536)]
            print(f"{kind:16}" + "".join(f" {t:8.2f}" for t in times))


if __name__ == "__main__":
    main()
