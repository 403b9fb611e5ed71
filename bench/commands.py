#!/usr/bin/env python3
"""Times `audit`, `undo`, `why`, `lost` and `edit` on images of 4 MB and repairs of 200,000 updates.

    bench/commands.py PROGRAM [OTHER]

Prints processor seconds, the best of seven runs in turn, for each program; what both tell and save has to be the same.
"""
import os
import struct
import subprocess
import sys
import tempfile

RUNS = 7
RECORDS = 500000
VALUES = 200000
GROUPS = 30000

LIST = """version 1; order little;
structure Head { fixed u32 n; u32 count; u32 first -> nodes; }
structure Node { u32 value; u32 next -> nodes; }
pool nodes : Node[n] at 12 codes 1 step 1 none 0;
set Nodes of nodes; set Bad of nodes;
relation First : head -> nodes; relation Next : nodes -> nodes; relation Count : head -> number;
rule head => head.first in Nodes;
rule x in Nodes => x.next in Nodes;
rule x in Nodes when illegal(x.next) => x in Bad;
rule head => <head, head.first> in First;
rule x in Nodes => <x, x.next> in Next;
rule head => <head, head.count> in Count;
constraint tidy : forall x in Bad : not x in Bad;
constraint single : forall <x, y> in Next : size(Next.y) <= 1;
constraint start : forall <h, y> in First : size(Next.y) <= 0;
constraint total : head.Count = size(Nodes);
"""
FLAT = """version 1; order little;
structure Head { fixed u32 n; }
structure Rec { u8 v; }
pool recs : Rec[n] at 4 codes 1 step 1 none 0;
set All of recs;
relation V : recs -> number;
rule head, k in pool recs => recs[k] in All;
rule x in All => <x, x.v> in V;
constraint one : forall x in All : x.V = 1;
"""


def listed():
    """A list whose records follow each other."""
    nodes = (struct.pack("<II", i, i + 2 if i + 1 < RECORDS else 0) for i in range(RECORDS))
    return struct.pack("<III", RECORDS, RECORDS, 1) + b"".join(nodes)


def script():
    """Groups of one write each."""
    return "".join("set nodes[%d].value %d\ncommit\n" % (i * 13 % RECORDS, i % 10) for i in range(GROUPS)).encode()


def write(name, data):
    with open(name, "wb") as file:
        file.write(data if isinstance(data, bytes) else data.encode())


def run(words):
    """The processor seconds of a run, and what it told and saved."""
    if os.path.exists("out.img"):
        os.unlink("out.img")
    with open("told.txt", "wb") as told:
        ran = subprocess.Popen(words, stdout=told)
        _, status, used = os.wait4(ran.pid, 0)
    answer = [os.waitstatus_to_exitcode(status)]
    for name in ("told.txt", "out.img"):
        if os.path.exists(name):
            with open(name, "rb") as file:
                answer.append(file.read())
    return used.ru_utime + used.ru_stime, answer


def prepare(program):
    """The files of all cases; the report and the image of the repair are the first program's."""
    write("list.spec", LIST)
    write("list.img", listed())
    write("list.script", script())
    write("flat.spec", FLAT)
    write("flat.img", struct.pack("<I", VALUES) + bytes(VALUES))
    with open("flat.report", "wb") as report:
        subprocess.run([program, "repair", "flat.spec", "flat.img", "fixed.img"], stdout=report, check=True)


CASES = (
    ("audit", ["audit", "flat.spec", "flat.img", "flat.report", "fixed.img"]),
    ("undo", ["undo", "flat.spec", "fixed.img", "flat.report", "out.img"]),
    ("why", ["why", "list.spec", "list.img", "Nodes:nodes[%d]" % (RECORDS - 1)]),
    ("lost", ["lost", "list.spec", "list.img"]),
    ("edit", ["edit", "list.spec", "list.img", "list.script", "out.img"]),
)


def main():
    programs = [os.path.abspath(name) for name in sys.argv[1:]]
    with tempfile.TemporaryDirectory() as folder:
        os.chdir(folder)
        prepare(programs[0])
        for name, words in CASES:
            runs = [[run([program] + words) for program in programs] for _ in range(RUNS)]
            for place, program in enumerate(programs):
                best = min((each[place] for each in runs), key=lambda ran: ran[0])
                print("%-6s %.3f s, status %d: %s" % (name, best[0], best[1][0], program))
            if any(ran[1] != each[0][1] for each in runs for ran in each):
                sys.exit("the answers differ")


if __name__ == "__main__":
    main()
