#!/usr/bin/env python3
"""Times `plan` for a specification at its limits: 64 constraints of 16 conjunctions of 8 literals, and 128 rules.

    bench/plans.py PROGRAM [OTHER]

Prints seconds and megabytes at the peak, the best of three runs, for each program; what both print has to be the same.
"""
import os
import subprocess
import sys
import tempfile
import time

from effects import CONSTRAINTS, text


def run(program, name):
    begin = time.perf_counter()
    ran = subprocess.Popen([program, "plan", name], stdout=subprocess.PIPE)
    told = ran.stdout.read()
    _, status, used = os.wait4(ran.pid, 0)
    return time.perf_counter() - begin, used.ru_maxrss / 1024, os.waitstatus_to_exitcode(status), told


def main():
    with tempfile.TemporaryDirectory() as folder:
        name = os.path.join(folder, "limits.spec")
        with open(name, "w") as file:
            file.write(text(CONSTRAINTS))
        answers = []
        for program in sys.argv[1:]:
            runs = [run(os.path.abspath(program), name) for _ in range(3)]
            took, memory, status, told = min(runs, key=lambda r: r[0])
            print("%s: %.2f s, %.0f MB, status %d, %d lines" % (program, took, memory, status, told.count(b"\n")))
            answers.append((status, told))
        if any(answer != answers[0] for answer in answers):
            sys.exit("the answers differ")


if __name__ == "__main__":
    main()
