"""Where the time of a check went: seconds for each function's proof, by when its files were written.

  rm -rf CRATE/out; rt check --jobs 1 (in CRATE); python3 tools/proof_times.py CRATE [COUNT]

Only the files of one check from nothing by one job tell it.
"""
import collections
import os
import re
import sys


def main():
    folder = os.path.join(sys.argv[1], "out", "incremental")
    count = int(sys.argv[2]) if len(sys.argv) > 2 else 25
    files = []
    for place, _, names in os.walk(folder):
        files += [(os.stat(os.path.join(place, n)).st_mtime, n) for n in names if n.endswith(".oantt")]
    files.sort()
    times = collections.Counter()
    parts = collections.defaultdict(collections.Counter)
    before = files[0][0]
    for when, name in files:
        name = re.sub(r"^Rattle-|(\.decls)?\.oantt$", "", name)
        found = re.match(r"\w+-proofs\.(.*)\.([A-Z][\w+-]*)$", name)
        function, part = found.groups() if found else (name, "")
        times[function] += when - before
        parts[function][part] += when - before
        before = when
    for function, seconds in times.most_common(count):
        most = " ".join(f"{p}={t:.1f}" for p, t in parts[function].most_common(3))
        print(f"{seconds:6.2f} {function}  {most}")


main()
