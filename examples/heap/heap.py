#!/usr/bin/env python3
"""A store in a heap, dumped by gdb after one of twelve mistakes, repaired, and walked by itself."""
import os
import subprocess
import sys
import tempfile

HERE = os.path.dirname(os.path.realpath(__file__))
sys.path.insert(0, os.path.join(HERE, ".."))
import harness  # noqa: E402

NAME = "heap"
SPECS = [os.path.join(HERE, name + ".spec") for name in ("ends", "mend", "store")]
TOOLS = ["gcc", "gdb"]
OWN = None
FOLDER = tempfile.TemporaryDirectory()
STORE = os.path.join(FOLDER.name, "store")


def version():
    return "heap, judged by its own walk"


def dumps(runs):
    """The store after each run's mistake, and the pairs that ought to be in it; by one gdb."""
    words, files = ["gdb", "-batch", "-nx", "-ex", "break dumped"], []
    for number, (seed, mistake) in enumerate(runs):
        files.append([os.path.join(FOLDER.name, "%s%d" % (name, number)) for name in ("p", "d")])
        words += ["-ex", "run run %d %d %s" % (seed, mistake, files[-1][0]),
                  "-ex", "dump binary value %s *store" % files[-1][1], "-ex", "kill"]
    text = harness.run(words + [STORE])[1]
    if not all(os.path.exists(out) for _, out in files):
        raise harness.Missing("leave to trace" if "ptrace" in text else "a debugger that runs it")
    return [(harness.read(out), dict(line.split() for line in harness.read(pairs).splitlines()))
            for pairs, out in files]


def make(_):
    harness.demand(["gcc", "-g", "-O1", "-o", STORE, os.path.join(HERE, "store.c")])
    return dumps([(1, 0)])[0]


WAITING = []


def corrupt(_, __, ___):
    """Each of the twelve mistakes in turn, every time after other work."""
    if not WAITING:
        corrupt.rounds += 1
        WAITING.extend(dumps([(100 * corrupt.rounds + bug, bug) for bug in range(1, 13)])[::-1])
    return WAITING.pop()


corrupt.rounds = 0


def judge(path):
    status, text = harness.run([STORE, "walk", path])
    return text.splitlines() or ["status %d" % status] if status else []


def finish(_):
    pass


def derive(path):
    """The program rebuilds the end of its list, its chains, and its free list."""
    harness.demand([STORE, "mend", path])


def kept(image, stored):
    """The pairs that the list still has."""
    path = os.path.join(FOLDER.name, "kept")
    harness.write(path, image)
    done = subprocess.run([STORE, "list", path], stdout=subprocess.PIPE, check=True)
    listed = dict(line.split() for line in done.stdout.splitlines())
    return sum(listed.get(key) == value for key, value in stored.items())


if __name__ == "__main__":
    sys.exit(harness.main(sys.modules[__name__]))
