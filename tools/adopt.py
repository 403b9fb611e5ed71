#!/usr/bin/env python3
"""Gives this checkout libraries that a gate has proved, so that `rt check`, `rt try` and `rt plant` begin over them.

    tools/adopt.py [CRATE ..]                  from what `rt ci` keeps on this machine, where the kit keeps anything
    tools/adopt.py --from FOLDER [CRATE ..]    from another checkout, in which a whole `rt ci` runs or has run

Without it each of these proves, in a new checkout, all that stands below a crate, whatever a gate has proved. With names only these
crates and those below them are given. A library is taken only where its sources, and those below it, are the same. For local checks
alone: what the gate takes is the gate's own affair. Uses insides of the kits 13b and 13f.
"""
import importlib.machinery
import os
import shutil
import sys

sys.dont_write_bytecode = True


def give(folder, stamp, take):
    """Puts a library into a crate's folder by `take`, and says which sources it is of; whether that worked."""
    # (over files that stand there, taking would fail, and what is kept would count as damaged)
    shutil.rmtree("%s/out/rlib" % folder, ignore_errors=True)
    if not take():
        return False
    with open("%s/out/rlib/stamp" % folder, "w", encoding="utf-8") as file:
        file.write(stamp)
    return True


def from_kept(rt, crates):
    """How a library is taken from what the kit keeps of earlier gates."""
    kept = rt.Kept(crates)
    is_there = lambda crate: all(it.name in kept.rlibs for it in crate.below())
    return lambda crate: is_there(crate) and kept.give(crate, False, kept.key(crate)), kept.is_built


def from_folder(rt, folder):
    """How a library is taken from another checkout, where its sources are the same there."""
    others = {it.name: it for it in rt.rtlib.crates_below(folder)}

    def take(crate):
        other = others.get(crate.name)
        source = "%s/crates/%s/out/rlib/%s.rlib" % (folder, crate.name, crate.name)
        # (while a library is being made its folder stands there without the statements)
        if not other or other.stamp() != crate.stamp() or not os.path.isdir(source):
            return False
        shutil.copytree(source, crate.rlib, symlinks=True)
        return True

    return take, lambda crate: None


def main():
    words = sys.argv[1:]
    folder = words[1] if words[:1] == ["--from"] else ""
    names = words[2:] if folder else words
    rt = importlib.machinery.SourceFileLoader("rt", shutil.which("rt")).load_module()
    if not folder and not hasattr(rt, "Kept"):
        sys.exit("adopt: this kit keeps nothing: name a checkout in which a gate has run, by --from FOLDER")
    crates, stamps, given = rt.rtlib.crates_below(os.getcwd()), {}, []
    stamp = rt.rtlib.Crate.stamp

    def stamp_once(crate):
        if crate.folder not in stamps:
            stamps[crate.folder] = stamp(crate)
        return stamps[crate.folder]

    rt.rtlib.Crate.stamp = stamp_once
    wanted = {low.name for it in crates if it.name in names for low in [*it.below(), it]}
    take, note = from_folder(rt, folder) if folder else from_kept(rt, crates)
    for crate in sorted(crates, key=lambda it: len(it.below())):
        if crate.is_program or wanted and crate.name not in wanted:
            continue
        if not crate.is_built():
            if not give(crate.folder, crate.stamp(), lambda: take(crate)):
                continue
            given.append(crate.name)
        note(crate)
    print("adopt: %d given: %s" % (len(given), " ".join(given)))


if __name__ == "__main__":
    main()
