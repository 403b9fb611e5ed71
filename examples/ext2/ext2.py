#!/usr/bin/env python3
"""ext2 file systems of one group, broken by seeds, repaired, and judged by e2fsck -fn."""
import os
import random
import struct
import sys

HERE = os.path.dirname(os.path.realpath(__file__))
sys.path.insert(0, os.path.join(HERE, ".."))
import harness  # noqa: E402

NAME = "ext2"
SPECS = [os.path.join(HERE, name) for name in ("folders.spec", "ext2.spec")]
TOOLS = ["mke2fs", "debugfs", "e2fsck"]
OWN = ["e2fsck", "-fy"]
BLOCK, BLOCKS, INODES = 1024, 1024, 96
DATA, TABLE, INODE = 17, 5 * 1024, 128          # the first block of data, the table of inodes
BLOCK_MAP, INODE_MAP = 3 * BLOCK, 4 * BLOCK
COUNTS = [(1024 + 12, "<I"), (1024 + 16, "<I"), (2048 + 12, "<H"), (2048 + 14, "<H"),
          (2048 + 16, "<H")]


class System:
    """The inodes of a file system, by number, and what they hold."""

    def __init__(self, image):
        self.image = bytearray(image)

    def place(self, inode):
        return TABLE + (inode - 1) * INODE

    def kind(self, inode):
        """The kind of a live inode, 0 of another one."""
        mode, = struct.unpack_from("<H", self.image, self.place(inode))
        links, = struct.unpack_from("<H", self.image, self.place(inode) + 26)
        return mode >> 12 if links else 0

    def pointers(self, inode):
        return struct.unpack_from("<15I", self.image, self.place(inode) + 40)

    def entries(self, block):
        good = DATA <= block < BLOCKS
        return struct.unpack_from("<256I", self.image, block * BLOCK) if good else (0,) * 256

    def blocks(self, inode):
        """The numbers of the blocks of a file, 0 for a hole."""
        pointers = self.pointers(inode)
        return pointers[:12] + (self.entries(pointers[12]) if pointers[12] else ())

    def pieces(self, inode):
        """What the file holds, a block each, as far as its size says."""
        size, = struct.unpack_from("<I", self.image, self.place(inode) + 4)
        for at, block in enumerate(self.blocks(inode)[:(size + BLOCK - 1) // BLOCK]):
            data = self.image[block * BLOCK:(block + 1) * BLOCK] if block < BLOCKS else b""
            yield bytes(data if block else bytes(BLOCK))[:size - at * BLOCK]

    def files(self):
        return [inode for inode in range(DATA, INODES + 1) if self.kind(inode) == 8]

    def put(self, place, value, form="<I"):
        struct.pack_into(form, self.image, place, value)


def version():
    return "ext2, judged by e2fsck %s" % harness.run(["e2fsck", "-V"])[1].split()[1]


def make(folder):
    """Five folders with files of 0 to 12 blocks, and some larger ones; a few were deleted again."""
    path, chosen = os.path.join(folder, "made.img"), random.Random(2)
    harness.write(path, bytes(BLOCKS * BLOCK))
    harness.demand(["mke2fs", "-q", "-t", "ext2", "-b", "1024", "-I", "128", "-N", "96", "-m", "0",
                    "-O", "none,filetype", path])
    source = os.path.join(folder, "source")
    commands = ["mkdir d%d" % number for number in range(5)]
    for file in range(72):
        size = chosen.randrange(14, 60) if file % 9 == 8 else chosen.randrange(0, 12)
        harness.write("%s%d" % (source, file), chosen.randbytes(max(0, size * BLOCK - file)))
        commands.append("write %s%d d%d/file%d" % (source, file, file % 5, file))
    commands += ["rm d%d/file%d" % (file % 5, file) for file in range(3, 72, 12)]
    harness.demand(["debugfs", "-w", "-f", "-", path], "\n".join(commands).encode())
    for file in range(72):
        os.remove("%s%d" % (source, file))
    image = harness.read(path)
    system = System(image)
    return image, {inode: list(system.pieces(inode)) for inode in system.files()}


def corrupt(image, stored, chosen):
    """One to four faults in the bitmaps, the counts and the pointers."""
    system = System(image)
    files = system.files()
    large = [inode for inode in files if system.pointers(inode)[12]]
    used = [block for inode in files for block in system.blocks(inode) if block]
    wild = lambda: chosen.choice([chosen.randrange(1, DATA), chosen.randrange(BLOCKS, 1 << 32)])
    elsewhere = lambda: chosen.choice(used) if chosen.randrange(2) else wild()
    for _ in range(chosen.randrange(1, 5)):
        kind, inode = chosen.randrange(12), chosen.choice(files)
        filled = [k for k in range(12) if system.pointers(inode)[k]] or [0]
        direct = system.place(inode) + 40 + 4 * chosen.choice(filled)
        if kind < 2:                                    # a bit of the map of blocks
            bit = chosen.randrange(16 if kind else 0, BLOCKS - 1)
            system.image[BLOCK_MAP + bit // 8] ^= 1 << bit % 8
        elif kind < 4:                                  # a bit of the map of inodes
            bit = chosen.randrange(INODES)
            system.image[INODE_MAP + bit // 8] ^= 1 << bit % 8
        elif kind == 4:                                 # a count
            place, form = chosen.choice(COUNTS)
            system.put(place, chosen.randrange(1 << 16), form)
        elif kind == 5:                                 # a block of two files
            system.put(direct, chosen.choice(used))
        elif kind == 6:                                 # a pointer out of the data
            system.put(direct, wild())
        elif kind == 7:                                 # the number of a file's blocks
            system.put(system.place(inode) + 28, chosen.randrange(64))
        elif kind == 8:                                 # an entry of an indirect block
            block = system.pointers(chosen.choice(large))[12]
            if DATA <= block < BLOCKS:
                system.put(block * BLOCK + 4 * chosen.randrange(48), elsewhere())
        elif kind == 9:                                 # a pointer to an indirect block
            system.put(system.place(inode) + 88, elsewhere())
        elif kind == 10:                                # a double or triple indirect block
            system.put(system.place(inode) + 92 + 4 * chosen.randrange(2), elsewhere())
        else:                                           # a pointer of a folder
            system.put(system.place(chosen.randrange(11, 17)) + 40, elsewhere())
    return bytes(system.image), stored


def judge(path):
    """The kinds of complaint of e2fsck -fn."""
    status, text = harness.run(["e2fsck", "-fn", path])
    if status == 0:
        return []
    kinds = {"unallocated block": "a folder without its block",
             "directory corrupted": "a folder whose block is another one's",
             "i_blocks is": "the number of blocks of a file with an indirect block",
             "i_size is": "the size of a file that ends behind it",
             "shared with 0 file": "one block twice in one file",
             "claimed": "shared blocks", "illegal": "illegal pointers"}
    return [kind for words, kind in kinds.items() if words in text] or [text]


def finish(path):
    pass


def derive(path):
    """Counts the blocks of files with an indirect block, which the language can't."""
    system = System(harness.read(path))
    for inode in system.files():
        if system.pointers(inode)[12]:
            count = 1 + sum(map(bool, system.blocks(inode)))
            system.put(system.place(inode) + 28, 2 * count)
    harness.write(path, system.image)


def kept(image, stored):
    """The blocks of files that are read as they were stored, by inode."""
    system = System(image)
    return sum(sum(map(bytes.__eq__, system.pieces(inode), pieces))
               for inode, pieces in stored.items() if system.kind(inode) == 8)


if __name__ == "__main__":
    sys.exit(harness.main(sys.modules[__name__]))
