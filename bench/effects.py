#!/usr/bin/env python3
"""Times what the updates for all literals of a specification at its limits may change: 64 constraints of 16 conjunctions of 8.

    bench/effects.py PROGRAM

PROGRAM is crates/dsr_text_tests/out/dsr_text_tests, as a whole `rt ci` leaves it. It reads the
specification, so parsing it and printing each effect are in the time; a specification without literals is taken off.
"""
import subprocess
import sys
import time

FIELDS = 8
SETS = 16
RULES = 127
CONSTRAINTS = 64


def text(constraints):
    lines = ["version 1; order little;", "structure Head { fixed u8 n; u8 top -> recs; }"]
    lines.append("structure Rec { %s }" % " ".join("u8 f%d;" % i for i in range(FIELDS)))
    lines.append("pool recs : Rec[n] at 2 codes 1 step 1 none 0;")
    lines.append("set All of recs;")
    lines += ["set S%d of recs;" % i for i in range(SETS)]
    lines += ["relation R%d : recs -> number;" % i for i in range(47)]
    lines.append("rule head => head.top in All;")
    for i in range(80):
        guards = " and ".join("x.f%d = %d" % ((i + j) % FIELDS, i % 5) for j in range(4))
        lines.append("rule x in All when %s => x in S%d;" % (guards, i % SETS))
    for i in range(47):
        guards = " and ".join("x.f%d < %d" % ((i + j) % FIELDS, 3 + i % 5) for j in range(4))
        lines.append("rule x in S%d when %s => <x, x.f%d> in R%d;" % (i % SETS, guards, i % FIELDS, i))
    for c in range(constraints):
        pairs = ["(x in S%d or not x in S%d)" % ((c + p) % SETS, (c + p) % SETS) for p in range(4)]
        pairs += ["x in S%d" % ((c + 4 + p) % SETS) for p in range(4)]
        lines.append("constraint c%d : forall x in All : %s;" % (c, " and ".join(pairs)))
    return "\n".join(lines) + "\n"


def run(program, constraints):
    words = ("##### graphs\n=== effects limits\n" + text(constraints)).encode()
    best, lines = None, 0
    for _ in range(5):
        begin = time.perf_counter()
        ran = subprocess.run([program], input=words, stdout=subprocess.PIPE, check=True)
        took = time.perf_counter() - begin
        best = took if best is None else min(best, took)
        lines = ran.stdout.count(b"rule ")
    return best, lines, len(words)


def main():
    program = sys.argv[1]
    none, _, _ = run(program, 0)
    all_of_them, effects, size = run(program, CONSTRAINTS)
    print("%d effects of a specification of %d bytes: %.3f s, %.3f s beyond one without constraints"
          % (effects, size, all_of_them, all_of_them - none))


if __name__ == "__main__":
    main()
