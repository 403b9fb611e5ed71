#!/usr/bin/env python3
"""How long `text` takes for rules and constraints at the limits of the language, and over them.

usage: bench/specifications.py BINARY [RUNS]

Prints the bytes of each text and the least time of a run in milliseconds, less that of the same
declarations without rules and constraints. The last texts are over the limits, at a quarter, a half
and all of 65,536 bytes: these are refused, and their time grows with the length and no faster.
"""

import sys

from timing import LARGEST, Timer, filled

START = (
    "version 2;order little;structure Head{u8 a->p;u8 n;u8 m[8];}"
    + "".join(f"structure S{s}{f' extends S{s - 1}' if s else ''}{{u8 f{s}->p;u8 g{s};u8 h{s}[8];}}" for s in range(60))
    + "pool p:S59[8]at 100 codes 1 step 1 none 0;"
    + "".join(f"set A{s} of p;" for s in range(30))
    + "set F of p except A0;"
    + "".join(f"relation R{r}:p->p;" for r in range(30))
    + "relation N:p->number;"
)


def rule(n):
    """Four guards on fields of the first ancestor, which stands behind 59 others, and an index."""
    set_, relation = f"A{n % 30}", f"R{n % 30}"
    return (
        f"rule x in {set_},k in h0 when legal(x.f0) and x.g0=1 and some(x.f0) and x.h0[k]<9=><x,x.f0> in {relation};"
    )


def rules():
    return START + "".join(rule(n) for n in range(128))


def constraint(n, atoms):
    parts = " and ".join(f"({atoms[2 * i]} or {atoms[2 * i + 1]})" for i in range(4))
    return f"constraint c{n}:forall x in A{n % 30}:{parts};"


ATOMS = [
    "not x in F",
    "x in A1",
    "size(x.R1)<=1",
    "size(R2.x)>=2",
    "x.N<=9",
    "x.N=size(x.R3)",
    "given not x in A2",
    "size(A3)=4",
]


def constraints():
    """16 conjunctions of 4 literals each, of 8 different atoms."""
    return START + "rule x in A0=><x,x.g0> in N;" + "".join(constraint(n, ATOMS) for n in range(128))


def both():
    text = START + "".join(rule(n) for n in range(128))
    return text + "".join(constraint(n, ATOMS) for n in range(128))


def wide():
    """Formulas of 128 literals, whose forms would have 2^64 conjunctions."""
    formula = " and ".join(["(x in A1 or x in A2)"] * 64)
    return filled(START, lambda n: f"constraint c{n}:forall x in A0:{formula};", LARGEST)


OVER = {
    "too many rules": lambda n: f"rule x in A{n % 30}=>x in A{n % 29};",
    "too many names": lambda n: f"constraint c{n}:size(A0)=0;",
    "unknown names": lambda n: f"constraint c{n}:y{n} in B{n};",
}


def main():
    with Timer(sys.argv) as timer:
        start = timer.milliseconds(START)
        print(f"{'declarations':16} {len(START):8} {start:8.2f}")
        timer.print_texts((rules, constraints, both, wide), start)
        timer.print_growth(START, OVER, start)


if __name__ == "__main__":
    main()
