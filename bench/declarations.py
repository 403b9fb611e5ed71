#!/usr/bin/env python3
"""How long `text` takes for declarations: at the limits of the language, and over them.

usage: bench/declarations.py BINARY [RUNS]

Prints the bytes of each text and the least time of a run in milliseconds, less that of an empty
structure `Head`. The first texts are at the limits, the last three over them at a quarter, a half
and all of 65,536 bytes: these are refused, and their time grows with the length and no faster.
"""

import sys

from timing import LARGEST, Timer

START = "version 1;order little;"


def fields(structure, count):
    return "".join(f"u8 {structure}{n};" for n in range(count))


def apart():
    """64 structures of 64 fields, which don't extend each other, and 32 pools."""
    structures = "".join(f"structure S{s}{{{fields('f', 64)}}}" for s in range(63))
    return START + structures + "structure Head{fixed u8 n;}" + pools("S0")


def chained():
    """The same in one chain, where each field is looked for in all ancestors."""
    structures = "".join(
        f"structure S{s}{f' extends S{s - 1}' if s else ''}{{{fields(f'f{s}x', 64)}}}" for s in range(63)
    )
    return START + structures + "structure Head{fixed u8 n;}" + pools("S0")


def pools(structure):
    return "".join(f"pool p{p}:{structure}[n]at 1 codes 0 step 1 none 9;" for p in range(32))


def sets():
    """64 sets, and supplies that avoid them all over again."""
    text = START + "structure Head{}structure R{}pool p:R[1]at 0 codes 0 step 1 none 9;"
    text += "".join(f"set A{n} of p;" for n in range(64)) + "fresh p avoid A0"
    return text + ",A63" * ((LARGEST - len(text) - 1) // 4) + ";"


def expressions():
    """A fixed field, named in as many expressions as there is room for."""
    text = START + "structure Head{fixed u8 n;"
    return text + ("skip n" + "+n" * 32 + ";") * 64 + "}"


OVER = {
    "long chain": lambda n: f"structure S{n}{f' extends S{n - 1}' if n else ''}{{u8 f{n};}}",
    "same fields": lambda n: f"structure S{n}{{u8 f;}}",
    "structures": lambda n: f"structure S{n}{{}}",
}


def main():
    with Timer(sys.argv) as timer:
        empty = timer.milliseconds(START + "structure Head{}")
        print(f"{'empty':16}          {empty:8.2f}")
        timer.print_texts((apart, chained, sets, expressions), empty)
        timer.print_growth(START + "structure Head{}", OVER, empty)


if __name__ == "__main__":
    main()
