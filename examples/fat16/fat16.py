#!/usr/bin/env python3
"""FAT16 volumes as mkfs.fat makes them, broken by seeds, repaired, and judged by fsck.fat -n."""
import os
import random
import struct
import sys

HERE = os.path.dirname(os.path.realpath(__file__))
sys.path.insert(0, os.path.join(HERE, ".."))
import harness  # noqa: E402

NAME = "fat16"
SPECS = [os.path.join(HERE, "fat16.spec")]
TOOLS = ["mkfs.fat", "fsck.fat", "mcopy", "mdel"]
OWN = ["fsck.fat", "-a"]
SECTOR = 512
END = 0xFFFF


class Volume:
    """The places of a volume, and its tables and files. All is read from the boot sector."""

    def __init__(self, image):
        self.image = bytearray(image)
        (self.sector, self.cluster, self.reserved, self.tables, self.entries, small, _,
         self.length) = struct.unpack_from("<HBHBHHBH", image, 11)
        total = small or struct.unpack_from("<I", image, 32)[0]
        self.table = self.reserved * self.sector
        self.root = self.table + self.tables * self.length * self.sector
        self.data = self.root + self.entries * 32
        self.count = (total - self.data // self.sector) // self.cluster

    def get(self, cluster):
        return struct.unpack_from("<H", self.image, self.table + 2 * cluster)[0]

    def put(self, cluster, value):
        """Puts an entry into every table, as a driver does."""
        for table in range(self.tables):
            place = self.table + table * self.length * self.sector
            struct.pack_into("<H", self.image, place + 2 * cluster, value)

    def files(self):
        """Name, place, first cluster and size of each file."""
        for place in range(self.root, self.data, 32):
            first, flags = self.image[place], self.image[place + 11]
            if first == 0:
                return
            if first != 0xE5 and not flags & 0x18:
                start, size = struct.unpack_from("<HI", self.image, place + 26)
                yield bytes(self.image[place:place + 11]), place, start, size

    def chain(self, start):
        """The clusters from the first one on, as far as they lead."""
        seen = []
        while 2 <= start < self.count + 2 and len(seen) < self.count:
            seen.append(start)
            start = self.get(start)
        return seen

    def piece(self, cluster):
        place = self.data + (cluster - 2) * self.cluster * self.sector
        return bytes(self.image[place:place + self.cluster * self.sector])

    def pieces(self, start, size):
        """What the file holds, a cluster each; the last one as far as the size says."""
        step = self.cluster * self.sector
        for at, cluster in enumerate(self.chain(start)[:(size + step - 1) // step]):
            yield self.piece(cluster)[:size - at * step]


def version():
    text = harness.run(["fsck.fat", "-n", HERE])[1]
    return "fat16, judged by fsck.fat %s" % text.split("fsck.fat ")[1].split(" (")[0]


def make(folder, sectors=4800, files=40):
    """A volume with files of up to 20 KB, scattered, since every third one was deleted before."""
    path, chosen = os.path.join(folder, "made.img"), random.Random(16)
    harness.write(path, bytes(sectors * SECTOR))
    harness.demand(["mkfs.fat", "-F", "16", "-s", "1", "-r", "128", "-i", "20260101", path])
    for turn in range(2):
        for file in range(files):
            name = "F%02d_%d.BIN" % (file, turn)
            size = chosen.choice([0, chosen.randrange(1, 600), chosen.randrange(1, 20000)])
            harness.write(os.path.join(folder, name), chosen.randbytes(size))
            if turn == 0 or file % 3 == 0:
                harness.demand(["mcopy", "-i", path, os.path.join(folder, name), "::" + name])
            os.remove(os.path.join(folder, name))
        if turn == 0:
            gone = ["::F%02d_0.BIN" % file for file in range(0, files, 3)]
            harness.demand(["mdel", "-i", path] + gone)
    image = harness.read(path)
    volume = Volume(image)
    stored = {name: list(volume.pieces(start, size)) for name, _, start, size in volume.files()}
    return image, stored


def corrupt(image, stored, chosen):
    """One to four faults in the tables and the directory."""
    volume = Volume(image)
    chains = [volume.chain(start) for _, _, start, _ in volume.files() if start]
    used = [cluster for chain in chains for cluster in chain]
    free = [cluster for cluster in range(2, volume.count + 2) if volume.get(cluster) == 0]
    files = list(volume.files())
    wild = lambda: chosen.randrange(volume.count + 2, 0xFFF0)
    for _ in range(chosen.randrange(1, 5)):
        kind = chosen.randrange(8)
        place = chosen.choice(files)[1]
        if kind == 0:                                   # a chain that no file begins
            lost = chosen.sample(free, chosen.randrange(1, 6))
            for here, there in zip(lost, lost[1:] + [END]):
                volume.put(here, there)
        elif kind == 1:                                 # a free cluster that is marked as used
            volume.put(chosen.choice(free), END)
        elif kind == 2:                                 # a chain that leads into another
            volume.put(chosen.choice(used), chosen.choice(used))
        elif kind == 3:                                 # a chain that leads out of the table
            volume.put(chosen.choice(used), wild())
        elif kind == 4:                                 # a chain without its end mark
            volume.put(chosen.choice(chains)[-1], chosen.choice([0, 1, wild()]))
        elif kind == 5:                                 # a file that begins elsewhere
            start = chosen.choice([chosen.choice(used), wild(), 0, 1])
            struct.pack_into("<H", volume.image, place + 26, start)
        elif kind == 6:                                 # a volume that wasn't closed
            volume.put(1, chosen.choice([0x7FFF, 0xBFFF, 0x3FFF]))
        else:                                           # an empty file with a first cluster
            empty = [place for _, place, start, size in files if size == 0]
            struct.pack_into("<H", volume.image, chosen.choice(empty) + 26, chosen.choice(used))
    return bytes(volume.image), stored


def judge(path):
    """The kinds of complaint of fsck.fat -n."""
    status, text = harness.run(["fsck.fat", "-n", path])
    if status == 0:
        return []
    kinds = {"File size is": "the size of a file isn't that of its chain",
             "beyond limit": "a file begins out of the table", "share clusters": "shared clusters",
             "Dirty bit": "the volume wasn't closed", "unused": "lost clusters",
             "FATs differ": "the tables differ"}
    return [kind for words, kind in kinds.items() if words in text] or [text]


def finish(path):
    """Copies the first table to the others, which the specification doesn't describe."""
    volume = Volume(harness.read(path))
    for cluster in range(volume.count + 2):
        volume.put(cluster, volume.get(cluster))
    harness.write(path, volume.image)


def derive(path):
    """Makes the size of each file and the length of its chain agree: the shorter one counts."""
    volume = Volume(harness.read(path))
    step = volume.cluster * volume.sector
    for _, place, start, size in volume.files():
        chain = volume.chain(start)
        whole = (size + step - 1) // step
        struct.pack_into("<I", volume.image, place + 28, min(size, len(chain) * step))
        for cluster in chain[whole:]:
            volume.put(cluster, 0)
        if chain[whole:]:
            volume.put(chain[whole - 1], END)
    harness.write(path, volume.image)


def kept(image, stored):
    """The clusters of files that are read as they were stored."""
    volume = Volume(image)
    files = {name: (start, size) for name, _, start, size in volume.files()}
    total = 0
    for name, pieces in stored.items():
        if name in files:
            total += sum(map(bytes.__eq__, volume.pieces(*files[name]), pieces))
    return total


if __name__ == "__main__":
    sys.exit(harness.main(sys.modules[__name__]))
