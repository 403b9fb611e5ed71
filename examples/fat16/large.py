#!/usr/bin/env python3
"""A FAT16 volume of 32 MB with 3,000 lost clusters: steps, time and verdict of its repair."""
import os
import random
import sys
import tempfile

import fat16
from fat16 import harness


def main(lost=3000, sectors=64000):
    lacking = harness.missing(fat16.TOOLS)
    if lacking:
        print("fat16: skipped, without %s" % ", ".join(lacking))
        return 0
    with tempfile.TemporaryDirectory() as folder:
        chosen = random.Random(1)
        volume = fat16.Volume(fat16.make(folder, sectors)[0])
        free = [cluster for cluster in range(2, volume.count + 2) if volume.get(cluster) == 0]
        clusters = chosen.sample(free, lost)
        for here, there in zip(clusters, clusters[1:] + [fat16.END]):
            volume.put(here, fat16.END if chosen.randrange(4) == 0 else there)
        broken, fixed = os.path.join(folder, "broken.img"), os.path.join(folder, "fixed.img")
        harness.write(broken, volume.image)
        begun = harness.used()
        steps, _ = harness.repair(fat16.SPECS, broken, fixed)
        seconds = harness.used() - begun
        fat16.finish(fixed)
        print("%d bytes, %d steps, %.2f s, %s" % (len(volume.image), steps, seconds,
              "refused" if fat16.judge(fixed) else "accepted"))
    return 0


if __name__ == "__main__":
    sys.exit(main())
