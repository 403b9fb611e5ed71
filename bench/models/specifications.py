"""Random specifications with random images, for repairs of many steps.

A specification has one to three pools of records, whose fields lead to each other; sets that rules
fill along such fields, under guards or not; relations by the same fields; and a few constraints
that many records of a random image violate. Some have structures that share bits, bits as fields,
arrays, complements and supplies of fresh records. Not each has a plan.
"""

# (code of slot 0, step between codes, code of no slot)
CODES = [(1, 1, 0)] * 4 + [(0, 1, 65535), (2, 2, 1), (16, 8, 0)]


class Field:
    """A field: its entries have so many bits, and lead to a pool, or are numbers. An array has its
    length as text and how many entries that is."""

    def __init__(self, name, bit, width, pool=None, length=None, count=None):
        self.name, self.bit, self.width, self.pool = name, bit, width, pool
        self.length, self.count = length, count

    def index(self):
        """What a rule that reads an array is indexed by."""
        return self.name if self.length else None

    def path(self, variable):
        return "%s.%s%s" % (variable, self.name, "[k]" if self.length else "")


class Structure:
    """A structure whose own fields begin behind those of its parent."""

    def __init__(self, name, parent=None):
        self.name, self.parent, self.own, self.lines = name, parent, [], []
        self.bit = parent.bytes() * 8 if parent else 0

    def fields(self):
        return (self.parent.fields() if self.parent else []) + self.own

    def bytes(self):
        return (self.bit + 7) // 8

    def align(self):
        if self.bit % 8:
            self.lines.append("bits %d pad%s%d;" % (8 - self.bit % 8, self.name, self.bit))
            self.bit += 8 - self.bit % 8

    def add(self, name, width, pool=None, length=None, count=None):
        """Adds a field; an array ends at a byte."""
        if width >= 8 or length:
            self.align()
        word = "u%d" % width if width in (8, 16) else "bits %d" % width
        ending = "%s%s;" % ("[%s]" % length if length else "", " -> " + pool.name if pool else "")
        self.lines.append("%s %s%s" % (word, name, ending))
        self.own.append(Field(name, self.bit, width, pool, length, count))
        self.bit += width * (count or 1)
        if length:
            self.bit = self.bytes() * 8

    def text(self):
        extends = " extends " + self.parent.name if self.parent else ""
        return "structure %s%s { %s }" % (self.name, extends, " ".join(self.lines))


class Pool:
    """A pool, with how many records it has, as text and as a number."""

    def __init__(self, name, length, count, codes):
        self.name, self.length, self.count, self.codes = name, length, count, codes
        self.structures = []


class Set:
    """A set; it is fed once some rule gives it members."""

    def __init__(self, name, pool, structure, base=None):
        self.name, self.pool, self.structure, self.base = name, pool, structure, base
        self.fed = False


class Relation:
    """A relation, whose sources are the records of the premise's set, if there is one."""

    def __init__(self, name, source, target, width, premise):
        self.name, self.source, self.target = name, source, target
        self.width, self.premise = width, premise


class Specification:
    """A random specification, of pools with up to so many records."""

    def __init__(self, rng, most):
        self.rng = rng
        self.version = 2 if self.chance(0.25) else 1
        self.n = rng.randint(most // 2 + 1, most)
        self.pools = [self.pool(i, most) for i in range(rng.choice([1, 1, 1, 2, 2, 3]))]
        self.names = 0
        for pool in self.pools:
            self.structures(pool)
        self.head_structure()
        self.sets = [s for pool in self.pools for s in self.pool_sets(pool)]
        self.relations, self.rules, self.guarded, self.owned = [], [], {}, []
        self.fill()
        self.complements = self.some_complements()
        self.supplies = [self.supply(pool) for pool in self.pools if self.chance(0.6)]
        self.constraints = self.some_constraints()

    def chance(self, share):
        return self.rng.random() < share

    def name(self, start):
        self.names += 1
        return "%s%d" % (start, self.names)

    # Pools and structures

    def pool(self, number, most):
        if number == 0 or self.chance(0.3):
            length, count = "n", self.n
        else:
            count = self.rng.randint(1, most)
            length = str(count)
        return Pool("p%d" % number, length, count, self.rng.choice(CODES))

    def add_reference(self, structure, length=None, count=None):
        structure.add(self.name("r"), 16, self.rng.choice(self.pools), length, count)

    def add_number(self, structure):
        structure.add(self.name("v"), self.rng.choice([1, 1, 2, 3, 8]))

    def add_fields(self, structure, references, numbers):
        for _ in range(references):
            self.add_reference(structure)
        if self.chance(0.3):
            count = self.rng.choice([2, 2, 3, 4])
            self.add_reference(structure, str(count), count)
        for _ in range(numbers):
            self.add_number(structure)

    def structures(self, pool):
        """Some pools have two more structures, whose own fields share bits."""
        top = Structure("R" + pool.name)
        self.add_fields(top, self.rng.choice([1, 1, 2, 2, 3]), self.rng.choice([0, 1, 2]))
        pool.structures = [top]
        if self.chance(0.3):
            for letter in "AB":
                below = Structure(letter + pool.name, top)
                self.add_fields(below, self.rng.choice([0, 1, 1]), self.rng.choice([1, 1, 2]))
                pool.structures.append(below)

    def head_structure(self):
        self.head = Structure("Head")
        self.head.lines.append("fixed u16 n;")
        self.head.bit = 16
        for pool in self.pools:
            self.head.add(self.name("h"), 16, pool)
            if self.chance(0.5):
                count = self.rng.randint(2, 30)
                self.head.add(self.name("h"), 16, pool, str(count), count)
            if self.chance(0.3):
                width = (self.name("m"), self.rng.choice([1, 1, 2]))
                self.head.add(*width, None, pool.length, pool.count)
            if self.chance(0.2):
                other = self.rng.choice(self.pools)
                self.head.add(self.name("m"), 16, other, pool.length, pool.count)
        self.add_number(self.head)
        self.head.add(self.name("v"), 16)

    # Sets and rules

    def pool_sets(self, pool):
        made = []
        for _ in range(self.rng.choice([1, 2, 2, 3])):
            any_of = pool.structures
            made.append(self.rng.choice(any_of) if self.chance(0.6) else pool.structures[0])
        return [Set(self.name("S"), pool, structure) for structure in made]

    def rule(self, premise, index, guards, gives):
        reads = "x in " + premise.name if premise else "head"
        indexed = ", k in " + index if index else ""
        self.rules.append("rule %s%s%s => %s;" % (reads, indexed, guards, gives))

    def guard(self, variable, fields, index=None):
        """A guard on one of the fields that may be read at the index."""
        may = [f for f in fields if not f.length or f.length == index]
        if not may:
            return None
        field = self.rng.choice(may)
        path = field.path(variable)
        if field.pool:
            return "%s(%s)" % (self.rng.choice(["legal", "illegal", "some", "none"]), path)
        value = self.rng.randrange(min(4, 2**field.width))
        return "%s %s %d" % (path, self.rng.choice(["=", "=", "!=", "<=", ">="]), value)

    def guards(self, share, variable, fields, index=None):
        guards = [self.guard(variable, fields, index) for _ in range(2) if self.chance(share)]
        guards = [guard for guard in guards if guard]
        return " when " + " and ".join(guards) if guards else ""

    def fill(self):
        """Gives each set members, from the head on, and makes relations along fields."""
        waiting = list(self.sets)
        self.rng.shuffle(waiting)
        for made in waiting:
            if self.chance(0.75) or not self.by_premise(made):
                self.by_head(made)
            self.close(made)
        for _ in range(self.rng.choice([1, 1, 2, 3])):
            self.by_premise(self.rng.choice(self.sets))
        for _ in range(self.rng.choice([1, 2, 2, 3, 4])):
            self.relate()
        if self.chance(0.5):
            self.own()
        if self.chance(0.2):
            self.relate_head()

    def by_head(self, made):
        """A rule under the head gives members of the set."""
        fields = [f for f in self.head.own if f.pool is made.pool]
        maps = [f for f in self.head.own if f.length == made.pool.length and f.length]
        slot = "%s[k] in %s" % (made.pool.name, made.name)
        chosen = self.rng.random()
        if chosen < 0.4:
            self.rule(None, "pool " + made.pool.name, "", slot)
        elif chosen < 0.6 and maps:
            field = self.rng.choice(maps)
            self.rule(None, field.name, self.guards(0.7, "head", [field], field.length), slot)
        else:
            field = self.rng.choice(fields)
            guards = self.guards(0.15, "head", [field], field.length)
            self.rule(None, field.index(), guards, "%s in %s" % (field.path("head"), made.name))
        made.fed = True

    def premises(self):
        return [s for s in self.sets if s.fed]

    def by_premise(self, made):
        """A rule under a set gives members of this one, if some set may be its premise."""
        if not self.premises():
            return False
        premise = self.rng.choice(self.premises())
        fields = premise.structure.fields()
        leading = [f for f in fields if f.pool is made.pool]
        if premise.pool is made.pool and premise is not made and self.chance(0.4):
            self.rule(premise, None, self.guards(0.8, "x", fields), "x in " + made.name)
            self.guarded[made] = premise
        elif leading:
            self.along(premise, self.rng.choice(leading), made, 0.15)
        else:
            return False
        made.fed = True
        return True

    def along(self, premise, field, made, share):
        """What a field of the set's records leads to is a member."""
        guards = self.guards(share, "x", premise.structure.fields(), field.length)
        self.rule(premise, field.index(), guards, "%s in %s" % (field.path("x"), made.name))

    def close(self, made):
        """Mostly lets a field of the set's records lead to members of the same set."""
        leading = [f for f in made.structure.fields() if f.pool is made.pool]
        if leading and self.chance(0.6):
            self.along(made, self.rng.choice(leading), made, 0.15)

    def relate(self):
        """A relation along a field or two of a set's records, which mostly lead to members, too."""
        if not self.premises():
            return
        premise = self.rng.choice(self.premises())
        fields = premise.structure.fields()
        field = self.rng.choice(fields)
        made = Relation(self.name("Q"), premise.pool, field.pool, field.width, premise)
        self.relations.append(made)
        others = [f for f in fields if f.pool is field.pool and f is not field]
        others = [f for f in others if f.pool or f.width == field.width]
        more = self.rng.sample(others, 1) if others and self.chance(0.3) else []
        for each in [field] + more:
            guards = self.guards(0.07, "x", fields, each.length)
            self.rule(premise, each.index(), guards, "<x, %s> in %s" % (each.path("x"), made.name))
            self.reach(premise, each)

    def reach(self, premise, field):
        """Mostly makes what a field leads to members, mostly of the same set if that may be."""
        reached = [s for s in self.sets if s.pool is field.pool]
        if reached and self.chance(0.7):
            is_same = premise in reached and self.chance(0.7)
            target = premise if is_same else self.rng.choice(reached)
            self.along(premise, field, target, 0.05)
            target.fed = True

    def own(self):
        """A relation along a field that nothing else reads: fresh records may come into it."""
        premise = self.rng.choice(self.premises())
        structure, target = premise.structure, self.rng.choice(self.pools)
        structure.add(self.name("r"), 16, target)
        field = structure.own[-1]
        made = Relation(self.name("Q"), premise.pool, target, 16, premise)
        self.relations.append(made)
        self.owned.append(made)
        self.rule(premise, None, "", "<x, x.%s> in %s" % (field.name, made.name))
        if self.chance(0.5):
            self.sets.append(Set(self.name("S"), target, target.structures[0]))
            self.along(premise, field, self.sets[-1], 0)

    def relate_head(self):
        """A relation by an array of the head, or one of the head itself."""
        field = self.rng.choice(self.head.own)
        if not field.length:
            made = Relation(self.name("Q"), None, field.pool, field.width, None)
            source = "head"
        else:
            pools = [p for p in self.pools if p.length == field.length]
            if not pools:
                return
            pool = self.rng.choice(pools)
            made = Relation(self.name("Q"), pool, field.pool, field.width, None)
            source = pool.name + "[k]"
        pair = "<%s, %s> in %s" % (source, field.path("head"), made.name)
        self.rule(None, field.index(), "", pair)
        self.relations.append(made)

    def some_complements(self):
        if self.version == 1:
            return []
        base = self.rng.sample(self.sets, 1)[0]
        return [Set(self.name("F"), base.pool, base.pool.structures[0], base)]

    def supply(self, pool):
        mine = [s for s in self.sets if s.pool is pool]
        if self.chance(0.6):
            avoided = mine
        else:
            avoided = self.rng.sample(mine, self.rng.randint(1, len(mine)))
        return "fresh %s avoid %s;" % (pool.name, ", ".join(s.name for s in avoided))

    # Constraints

    def some_constraints(self):
        forms = [self.removal, self.removal, self.addition, self.single, self.single, self.targets]
        forms += [self.targets, self.value, self.value, self.inverse, self.whole, self.apart]
        made = []
        for _ in range(self.rng.choice([1, 1, 1, 2, 2, 3, 4])):
            for formula in self.rng.choice(forms)():
                made.append("constraint %s : %s;" % (self.name("c"), formula))
        return made

    def any_set(self, pool):
        may = [s for s in self.sets + self.complements if s.pool is pool]
        return self.rng.choice(may) if may else None

    def records(self):
        """The relations between records."""
        return [r for r in self.relations if r.target and r.source]

    def removal(self):
        made = self.rng.choice(self.sets)
        return ["forall x in %s : not x in %s" % (self.any_set(made.pool).name, made.name)]

    def addition(self):
        if not self.guarded:
            return []
        made = self.rng.choice(list(self.guarded))
        return ["forall x in %s : x in %s" % (self.guarded[made].name, made.name)]

    def single(self):
        if not self.records():
            return []
        name = self.rng.choice(self.records()).name
        most = self.rng.choice([1, 1, 1, 2])
        return ["forall <x, y> in %s : size(%s.y) <= %d" % (name, name, most)]

    def apart(self):
        records = self.records()
        pairs = [(q, r) for q in records for r in records if q is not r and q.target is r.target]
        if not pairs:
            return []
        first, second = self.rng.choice(pairs)
        most = self.rng.choice([0, 0, 1])
        return ["forall <x, y> in %s : size(%s.y) <= %d" % (first.name, second.name, most)]

    def over_sources(self, made):
        """A quantifier over what may be a source of the relation, and its variable."""
        if not made.source:
            return "", "head"
        is_premise = made.premise and self.chance(0.8)
        quantified = made.premise if is_premise else self.any_set(made.source)
        return "forall x in %s : " % quantified.name, "x"

    def targets(self):
        if not self.relations:
            return []
        may = self.owned if self.owned and self.chance(0.7) else self.relations
        made = self.rng.choice(may)
        over, variable = self.over_sources(made)
        bounds = ["<= 1", "= 0", ">= 1", ">= 1", ">= 1", "= 1", "= 1", "= 1", "<= 2"]
        return ["%ssize(%s.%s) %s" % (over, variable, made.name, self.rng.choice(bounds))]

    def value(self):
        numbers = [r for r in self.relations if not r.target]
        if not numbers:
            return []
        made = self.rng.choice(numbers)
        over, variable = self.over_sources(made)
        bound = str(self.rng.randrange(min(4, 2**made.width)))
        if self.chance(0.5) and made.width > 2:
            bound = self.size(variable, made.source)
        compared = self.rng.choice(["=", "=", "=", "<=", ">="])
        return ["%s%s.%s %s %s" % (over, variable, made.name, compared, bound)]

    def size(self, variable, pool):
        """How many members, targets or sources there are."""
        sizes = ["size(%s)" % s.name for s in self.sets + self.complements]
        given = [r for r in self.relations if r.source is pool and r.target]
        sizes += ["size(%s.%s)" % (variable, r.name) for r in given]
        if pool:
            reaching = [r for r in self.relations if r.target is pool]
            sizes += ["size(%s.%s)" % (r.name, variable) for r in reaching] * 2
        return self.rng.choice(sizes)

    def inverse(self):
        records = self.records()
        pairs = [(q, r) for q in records for r in records if q is not r]
        pairs = [(q, r) for q, r in pairs if q.target is r.source and r.target is q.source]
        if not pairs:
            return []
        first, second = self.rng.choice(pairs)
        return ["forall <x, y> in %s : size(%s.y) <= 1" % (first.name, first.name),
                "forall <x, y> in %s : <y, x> in %s" % (first.name, second.name)]

    def whole(self):
        made = self.rng.choice(self.sets)
        bound = self.rng.choice(["<= %d" % self.rng.randrange(3), ">= 1", "= 1", "= 0"])
        return ["size(%s) %s" % (made.name, bound)]

    # Text and images

    def text(self):
        lines = ["version %d; order little;" % self.version, self.head.text()]
        lines += [structure.text() for pool in self.pools for structure in pool.structures]
        lines += self.pool_lines() + self.set_lines() + self.relation_lines()
        return "\n".join(lines + self.supplies + self.rules + self.constraints) + "\n"

    def pool_lines(self):
        """The pools, one behind the other, which tells the length of an image."""
        lines, at = [], self.head.bytes()
        for pool in self.pools:
            pool.start, pool.slot = at, max(s.bytes() for s in pool.structures)
            at += pool.slot * pool.count
            words = (pool.name, pool.structures[0].name, pool.length, pool.slot, pool.start)
            codes = "codes %d step %d none %d" % pool.codes
            lines.append("pool %s : %s[%s] slot %d at %d %s;" % (*words, codes))
        self.length = at
        return lines

    def set_lines(self):
        lines = []
        for made in self.sets:
            is_top = made.structure is made.pool.structures[0]
            reads = "" if is_top else " as " + made.structure.name
            lines.append("set %s of %s%s;" % (made.name, made.pool.name, reads))
        for made in self.complements:
            lines.append("set %s of %s except %s;" % (made.name, made.pool.name, made.base.name))
        return lines

    def relation_lines(self):
        lines = []
        for made in self.relations:
            source = made.source.name if made.source else "head"
            target = made.target.name if made.target else "number"
            lines.append("relation %s : %s -> %s;" % (made.name, source, target))
        return lines

    def image(self):
        """A random image; the text has to be made before."""
        image = bytearray(self.length)
        image[0:2] = self.n.to_bytes(2, "little")
        self.write_fields(image, 0, 1, 0, self.head.own)
        for pool in self.pools:
            fields = [f for structure in pool.structures for f in structure.own]
            self.write_fields(image, pool.start, pool.count, pool.slot, fields)
        return bytes(image)

    def write_fields(self, image, start, count, length, fields):
        """Writes fields of so many records, each of them in a mood of its own."""
        for field in fields:
            mood = self.rng.choice(["chain", "any", "any", "crowd", "few"])
            for slot in range(count):
                bit = (start + slot * length) * 8 + field.bit
                for entry in range(field.count or 1):
                    leads = field.pool is not None
                    value = self.reference(field, slot, mood) if leads else self.number(field)
                    put(image, bit + entry * field.width, field.width, value)

    def reference(self, field, slot, mood):
        """A code: of the next slot in a chain, of one of a few slots in a crowd, or of any."""
        pool, chosen = field.pool, self.rng.random()
        code, step, none = pool.codes
        if chosen < (0.6 if mood == "few" else 0.08):
            return none
        if chosen > 0.96:
            return self.rng.randrange(2**field.width)
        if mood == "chain" and self.chance(0.8):
            return code + (slot + 1) % pool.count * step
        most = min(pool.count, 4) if mood == "crowd" and self.chance(0.6) else pool.count
        return code + self.rng.randrange(most) * step

    def number(self, field):
        most = 2**field.width
        return self.rng.choice([0, 0, 1, 1, 2, 3, self.rng.randrange(most)]) % most


def put(image, bit, width, value):
    """Writes a number, its least bit first."""
    if bit % 8 == 0 and width % 8 == 0:
        image[bit // 8:(bit + width) // 8] = value.to_bytes(width // 8, "little")
        return
    for place in range(width):
        at = bit + place
        image[at // 8] = image[at // 8] & ~(1 << at % 8) | (value >> place & 1) << at % 8


def crossed(rng, images):
    """One of the images, in which a few stretches are those of another one; all have one length,
    and the fixed field stands in the first two bytes."""
    made, other = bytearray(rng.choice(images)), rng.choice(images)
    for _ in range(rng.randint(1, 3)):
        start, end = sorted((rng.randrange(2, len(made) + 1), rng.randrange(2, len(made) + 1)))
        made[start:end] = other[start:end]
    return bytes(made)
