#!/usr/bin/env python3
"""A flash translation layer with its writer and its checker, broken by seeds and repaired."""
import os
import random
import struct
import sys

HERE = os.path.dirname(os.path.realpath(__file__))
sys.path.insert(0, os.path.join(HERE, ".."))
import harness  # noqa: E402

NAME = "ftl"
SPECS = [os.path.join(HERE, "ftl.spec")]
TOOLS = []
OWN = None
LOGICAL, PAGES, BLOCKS, PAYLOAD = 64, 256, 16, 32
EACH = PAGES // BLOCKS                                  # pages of a block
MAP = 16
SPARE = MAP + 2 * LOGICAL
TABLE = SPARE + 4 * PAGES
DATA = TABLE + 4 * BLOCKS
NONE, ERASED, LIVE, STALE = 0xFFFF, 255, 1, 0


class Flash:
    """The layer over the bytes of its image."""

    def __init__(self, image=None):
        self.image = bytearray(image or bytes(DATA) + b"\xff" * (PAGES * PAYLOAD))
        if image is None:
            struct.pack_into("<4sHHHHI", self.image, 0, b"FTL1", LOGICAL, PAGES, BLOCKS, PAGES, 0)
            for logical in range(LOGICAL):
                self.put(MAP + 2 * logical, "<H", NONE)
            for page in range(PAGES):
                self.put(SPARE + 4 * page, "<BBH", ERASED, page // EACH, NONE)

    def get(self, place, form):
        return struct.unpack_from(form, self.image, place)

    def put(self, place, form, *values):
        struct.pack_into(form, self.image, place, *values)

    def page(self, logical):
        return self.get(MAP + 2 * logical, "<H")[0]

    def spare(self, page):
        """State, block and owner of a page."""
        return self.get(SPARE + 4 * page, "<BBH")

    def change(self, place, form, by):
        self.put(place, form, self.get(place, form)[0] + by)

    def retire(self, page):
        _, block, owner = self.spare(page)
        self.put(SPARE + 4 * page, "<BBH", STALE, block, owner)
        self.change(TABLE + 4 * block, "<H", -1)

    def program(self, logical, page, payload):
        """Writes an erased page, and has the map lead to it."""
        block = self.spare(page)[1]
        self.put(SPARE + 4 * page, "<BBH", LIVE, block, logical)
        self.image[DATA + page * PAYLOAD:DATA + (page + 1) * PAYLOAD] = payload
        self.put(MAP + 2 * logical, "<H", page)
        self.change(TABLE + 4 * block, "<H", 1)
        self.change(10, "<H", -1)

    def erase(self, block):
        for page in range(block * EACH, (block + 1) * EACH):
            self.put(SPARE + 4 * page, "<BBH", ERASED, block, NONE)
            self.image[DATA + page * PAYLOAD:DATA + (page + 1) * PAYLOAD] = b"\xff" * PAYLOAD
        self.change(TABLE + 4 * block + 2, "<H", 1)
        self.change(10, "<H", EACH)
        self.change(12, "<I", 1)

    def collect(self):
        """Moves the live pages of the block that has the fewest, and erases it."""
        full = [block for block in range(BLOCKS)
                if all(self.spare(block * EACH + at)[0] != ERASED for at in range(EACH))]
        block = min(full, key=lambda block: self.get(TABLE + 4 * block, "<H"))
        moved = [(owner, self.read(owner)) for state, _, owner in
                 map(self.spare, range(block * EACH, (block + 1) * EACH)) if state == LIVE]
        for owner, payload in moved:
            self.retire(self.page(owner))
            self.program(owner, self.fresh(block), payload)
        self.erase(block)

    def fresh(self, avoid=None):
        return next(page for page in range(PAGES)
                    if self.spare(page)[0] == ERASED and page // EACH != avoid)

    def write(self, logical, payload):
        if self.get(10, "<H")[0] <= 2 * EACH:
            self.collect()
        if self.page(logical) != NONE:
            self.retire(self.page(logical))
        self.program(logical, self.fresh(), payload)

    def read(self, logical):
        page = self.page(logical)
        return bytes(self.image[DATA + page * PAYLOAD:DATA + (page + 1) * PAYLOAD])


def version():
    return "ftl, judged by its own checker"


def make(_):
    """What a thousand writes leave."""
    flash, chosen, stored = Flash(), random.Random(3), {}
    for _ in range(1000):
        logical = chosen.randrange(LOGICAL - 4)
        stored[logical] = chosen.randbytes(PAYLOAD)
        flash.write(logical, stored[logical])
    return bytes(flash.image), stored


def corrupt(image, stored, chosen):
    """One to four faults in the map, the spare areas and the counts."""
    flash = Flash(image)
    for _ in range(chosen.randrange(1, 5)):
        kind, page, block = chosen.randrange(8), chosen.randrange(PAGES), chosen.randrange(BLOCKS)
        state, own, owner = flash.spare(page)
        logical = chosen.randrange(LOGICAL)
        if kind == 0:                                   # the map leads to another's page
            flash.put(MAP + 2 * logical, "<H", flash.page(chosen.randrange(LOGICAL)))
        elif kind == 1:                                 # the map leads out of the flash
            flash.put(MAP + 2 * logical, "<H", chosen.randrange(PAGES, NONE))
        elif kind == 2:                                 # the map leads to no page any more
            flash.put(MAP + 2 * logical, "<H", NONE)
        elif kind == 3:                                 # an owner
            flash.put(SPARE + 4 * page, "<BBH", state, own, chosen.randrange(LOGICAL * 2))
        elif kind == 4:                                 # a state
            flash.put(SPARE + 4 * page, "<BBH", chosen.choice([0, 1, 7, 255]), own, owner)
        elif kind == 5:                                 # a count of live pages
            flash.put(TABLE + 4 * block, "<H", chosen.randrange(EACH + 9))
        elif kind == 6:                                 # the count of erased pages
            flash.put(10, "<H", chosen.randrange(PAGES))
        else:                                           # the block of a page
            flash.put(SPARE + 4 * page, "<BBH", state, chosen.randrange(BLOCKS), owner)
    return bytes(flash.image), stored


def judge(path):
    """What is wrong with an image, by the definition."""
    flash = Flash(harness.read(path))
    spares = [flash.spare(page) for page in range(PAGES)]
    led = [flash.page(logical) for logical in range(LOGICAL) if flash.page(logical) != NONE]
    if any(page >= PAGES for page in led) or len(set(led)) < len(led):
        return ["the map"]
    found = []
    if any(block != page // EACH for page, (_, block, _) in enumerate(spares)):
        found.append("the block of a page")
    if any(flash.page(logical) != NONE and spares[flash.page(logical)][2] != logical
           for logical in range(LOGICAL)):
        found.append("an owner")
    if any((page in led) != (state == LIVE) or state not in (ERASED, LIVE, STALE)
           for page, (state, _, _) in enumerate(spares)):
        found.append("a state")
    if any(flash.get(TABLE + 4 * block, "<H")[0] != sum(page // EACH == block for page in led)
           for block in range(BLOCKS)):
        found.append("a count of live pages")
    if flash.get(10, "<H")[0] != sum(state == ERASED for state, _, _ in spares):
        found.append("the count of erased pages")
    return found


def finish(_):
    pass


def derive(path):
    """Numbers the blocks of pages anew, and counts their live pages."""
    flash = Flash(harness.read(path))
    for page in range(PAGES):
        flash.put(SPARE + 4 * page + 1, "<B", page // EACH)
    led = [flash.page(logical) for logical in range(LOGICAL)]
    for block in range(BLOCKS):
        flash.put(TABLE + 4 * block, "<H", sum(page // EACH == block for page in led))
    harness.write(path, flash.image)


def kept(image, stored):
    """The logical pages that are read as they were written."""
    flash = Flash(image)
    return sum(flash.page(logical) < PAGES and flash.read(logical) == payload
               for logical, payload in stored.items())


if __name__ == "__main__":
    sys.exit(harness.main(sys.modules[__name__]))
