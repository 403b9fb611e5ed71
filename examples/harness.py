"""What the scripts of the formats share: tools, runs of the program, trials by seeds, figures.

A format has `NAME`, `SPECS` (the specifications, one after the other), `TOOLS` and

- `make(folder)`: the bytes of a sound image and the records that are stored in it,
- `corrupt(image, stored, random)`: the bytes of a broken image and the records stored in that,
- `judge(image)`: the complaints of its own tool about an image, none where it takes it,
- `finish(image)`: what its owner does after a repair, before the image is judged,
- `derive(image)`: what its owner rebuilds where the image isn't accepted as it is, or None,
- `kept(image, stored)`: how many of these records are still read (a record is a value of
  `stored`, or a member of one where that is a list),
- `OWN`: the words of the format's own tool that repairs an image in place, or None, and
- `version()`: what judges, with its version.
"""
import argparse
import os
import random
import resource
import shutil
import subprocess
import sys
import tempfile
from collections import Counter

HERE = os.path.dirname(os.path.realpath(__file__))
PROGRAM = os.environ.get("DSR", os.path.join(HERE, "..", "dist", "dsr"))


class Missing(Exception):
    """What a format lacks on this machine, although its tools are there."""


def run(words, given=None):
    """The status and the output of a program, both its streams together."""
    done = subprocess.run(words, input=given, stdout=subprocess.PIPE, stderr=subprocess.STDOUT,
                          check=False, env={**os.environ, "LC_ALL": "C", "TZ": "UTC0"})
    return done.returncode, done.stdout.decode("latin-1")


def demand(words, given=None):
    """The output of a program that has to succeed."""
    status, text = run(words, given)
    if status:
        sys.exit("%s: status %d\n%s" % (" ".join(words), status, text))
    return text


def missing(tools):
    """The tools that aren't installed. Those of file systems stand in folders of the system."""
    os.environ["PATH"] += ":/usr/sbin:/sbin"
    return [tool for tool in tools if shutil.which(tool) is None]


def write(path, data):
    with open(path, "wb") as file:
        file.write(data)


def read(path):
    with open(path, "rb") as file:
        return file.read()


def used():
    """The processor time that programs took so far."""
    times = resource.getrusage(resource.RUSAGE_CHILDREN)
    return times.ru_utime + times.ru_stime


def check(specs, path):
    """The number of bindings that specifications find violated, or None where one refuses."""
    found = 0
    for spec in specs:
        status, text = run([PROGRAM, "check", spec, path])
        if status > 1:
            return None
        found += int(text.split()[-1]) if status else 0
    return found


def repair(specs, path, out):
    """Repairs by one specification after the other. The steps, or the last line of a refusal."""
    shutil.copyfile(path, out)
    steps = 0
    for spec in specs:
        status, text = run([PROGRAM, "repair", spec, out, out])
        if status:
            return None, text.splitlines()[-1]
        steps += int(text.split()[-1])
    return steps, None


def own_repair(words, path):
    """The image as the format's own tool leaves it."""
    out = path + ".own"
    shutil.copyfile(path, out)
    run(words + [out])
    return read(out)


def trial(form, folder, sound, stored, seed, counts):
    """One seed: an image is broken, repaired and judged."""
    broken, fixed = os.path.join(folder, "broken.img"), os.path.join(folder, "fixed.img")
    image, stored = form.corrupt(sound, stored, random.Random("%s %d" % (form.NAME, seed)))
    write(broken, image)
    counts["seeds"] += 1
    counts["refused by the judge before"] += bool(form.judge(broken))
    found = check(form.SPECS, broken)
    counts["found by check"] += found != 0
    begun = used()
    steps, refusal = repair(form.SPECS, broken, fixed)
    counts["seconds"] += used() - begun
    if refusal:
        counts["why: repair says %s" % refusal.split()[0]] += 1
        return
    counts["steps"] += steps
    counts["repaired to consistent"] += check(form.SPECS[-1:], fixed) == 0
    form.finish(fixed)
    complaints = form.judge(fixed)
    counts["accepted by the judge"] += not complaints
    for complaint in complaints[:1]:
        counts["why: %s" % complaint] += 1
    counts["records"] += sum(len(it) if isinstance(it, list) else 1 for it in stored.values())
    counts["kept"] += form.kept(read(fixed), stored)
    if form.derive:
        form.derive(fixed)
        complaints = form.judge(fixed)
        counts["accepted once derived parts are rebuilt"] += not complaints
        for complaint in complaints[:1]:
            counts["still: %s" % complaint] += 1
    if form.OWN:
        counts["kept by its own tool"] += form.kept(own_repair(form.OWN, broken), stored)


def show(form, counts, timed):
    seeds = counts["seeds"]
    for name in ("refused by the judge before", "found by check", "repaired to consistent",
                 "accepted by the judge", "accepted once derived parts are rebuilt"):
        if name in counts:
            print("%s: %d of %d" % (name, counts[name], seeds))
    for name in ("kept", "kept by its own tool"):
        if name in counts:
            print("records %s: %.1f %%" % (name, 100 * counts[name] / counts["records"]))
    for name in sorted(counts, key=lambda name: (-counts[name], name)):
        if name.startswith("why: "):
            print("not accepted, %d: %s" % (counts[name], name[5:]))
    for name in sorted(counts, key=lambda name: (-counts[name], name)):
        if name.startswith("still: "):
            print("nor once rebuilt, %d: %s" % (counts[name], name[7:]))
    if timed:
        print("a repair: %.1f steps, %.0f ms" % (counts["steps"] / seeds,
                                                 1000 * counts["seconds"] / seeds))


def main(form):
    parser = argparse.ArgumentParser(description=form.__doc__)
    parser.add_argument("--seeds", type=int, default=200)
    parser.add_argument("--first", type=int, default=0, help="the first seed")
    parser.add_argument("--time", action="store_true", help="tell steps and time of a repair")
    parser.add_argument("--keep", metavar="FOLDER", help="keep the sound image and the last ones")
    words = parser.parse_args()
    lacking = missing(form.TOOLS)
    if lacking:
        print("%s: skipped, without %s" % (form.NAME, ", ".join(lacking)))
        return 0
    with tempfile.TemporaryDirectory() as temporary:
        folder = words.keep or temporary
        os.makedirs(folder, exist_ok=True)
        try:
            sound, stored = form.make(folder)
        except Missing as lack:
            print("%s: skipped, without %s" % (form.NAME, lack))
            return 0
        print(form.version())
        path = os.path.join(folder, "sound.img")
        write(path, sound)
        if form.judge(path) or check(form.SPECS, path) != 0:
            sys.exit("%s: the sound image isn't sound: %s" % (form.NAME, form.judge(path)))
        counts = Counter()
        for seed in range(words.first, words.first + words.seeds):
            trial(form, folder, sound, stored, seed, counts)
    show(form, counts, words.time)
    return 0
