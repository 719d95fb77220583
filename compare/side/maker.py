"""Values at random: a draft of the bytes, and the request that writes the same value."""

from . import draft as d

OIDS = [0, 16, 20, 23, 25, 600, 1043, 3904, 4294967295]
TAGS = [0, 2, 4, 6, 8, 0xA, 0xC, 0x10, 0x12, 0x14, 0x18, 0x1E, 0x20, 0x40, 0x80, 0xE2]


class Maker:
    def __init__(self, rng):
        self.rng = rng

    def make(self, kind):
        return getattr(self, kind)()

    def payload(self):
        rng = self.rng
        return rng.randbytes(rng.choice((0, 1, 3, 4, 4, 4, 5, 7, 8, 8, 9, 40)))

    def nullable(self, make):
        return None if self.rng.random() < 0.2 else make()

    def count(self):
        rng = self.rng
        return rng.choice((0, 1, 1, 2, 2, 3, 4, 7, rng.randrange(40)))

    def characters(self):
        """A text, seldom with something in it that is none."""
        rng = self.rng
        parts = [self.character() for _ in range(self.count())]
        if rng.random() < 0.05:
            parts.insert(rng.randrange(len(parts) + 1), rng.choice(d.NOT_TEXTS))
        return b"".join(parts)

    def character(self):
        rng = self.rng
        way = rng.random()
        if way < 0.5:
            return rng.choice((b"a", b"sugar", b"rye flour", b"butter 82", b" ", b"0123456789abcdef"))
        if way < 0.8:
            return rng.choice(d.TEXTS)
        code = rng.randrange(0x110000 - 0x800)
        return chr(code if code < 0xD800 else code + 0x800).encode()

    def double(self):
        rng = self.rng
        return rng.choice(d.DOUBLES) if rng.random() < 0.5 else rng.randbytes(8).hex()

    def text(self):
        return d.Draft().raw(self.characters()), None

    def array(self):
        rng = self.rng
        dimensions, count = self.dimensions()
        items = [self.nullable(self.payload) for _ in range(count)]
        oid = rng.choice(OIDS)
        flag = None if rng.random() < 0.8 else rng.choice(d.EXTREMES)
        words = [f"{length}:{lower}" for length, lower in dimensions]
        request = f"array_to_sql {oid} {d.listed(words)} {d.listed(map(d.printed, items))}"
        return d.array_draft(oid, dimensions, items, flag), request

    def dimensions(self):
        """Dimensions and the number of items: mostly their product, seldom any other number."""
        rng = self.rng
        lengths = [rng.choice((0, 1, 1, 2, 3, 5)) for _ in range(rng.choice((0, 1, 1, 1, 2, 2, 3, 7)))]
        if rng.random() < 0.05:
            lengths.append(rng.choice(d.EXTREMES))
        product = int(bool(lengths))
        for length in lengths:
            product *= length
        exact = 0 <= product <= 200 and rng.random() < 0.9
        lowers = (1, 1, 0, -5, d.INT_MAX, d.INT_MIN)
        return [(length, rng.choice(lowers)) for length in lengths], product if exact else self.count()

    def range(self):
        rng = self.rng
        if rng.random() < 0.1:
            return d.range_draft(1, []), "empty_range_to_sql"
        tag, words, bounds = rng.choice(TAGS), [], []
        for unbounded, inclusive in ((8, 2), (16, 4)):
            if tag & unbounded:
                words.append("unb")
                continue
            bounds.append(self.nullable(self.payload))
            words.append(("inc:" if tag & inclusive else "exc:") + d.printed(bounds[-1]))
        return d.range_draft(tag, bounds), "range_to_sql " + " ".join(words)

    def hstore(self):
        entries = [(self.characters(), self.nullable(self.characters)) for _ in range(self.count())]
        words = [f"{d.printed(key)}={d.printed(value)}" for key, value in entries]
        return d.hstore_draft(entries), "hstore_to_sql " + d.listed(words)

    def varbit(self):
        rng = self.rng
        bits = rng.choice((0, 1, 7, 8, 9, 10, 16, 17, rng.randrange(400)))
        data = rng.randbytes((bits + 7) // 8)
        told = bits if rng.random() < 0.7 else rng.choice(d.EXTREMES) % 2**64
        return d.varbit_draft(bits, data), f"varbit_to_sql {told} x{data.hex()}"

    def point(self):
        words = [self.double() for _ in range(2)]
        return d.doubles_draft(words), "point_to_sql " + ",".join(words)

    def box(self):
        words = [self.double() for _ in range(4)]
        return d.doubles_draft(words), "box_to_sql " + ",".join(words)

    def path(self):
        rng = self.rng
        points = [(self.double(), self.double()) for _ in range(self.count())]
        closed = rng.choice((0, 1, 1, 2, 255))
        request = f"path_to_sql {int(closed > 0)} {d.listed(map(':'.join, points))}"
        return d.path_draft(closed, points), request

    def inet(self):
        rng = self.rng
        family, size = rng.choice(((2, 4), (3, 16)))
        octets = rng.randbytes(size)
        mask = rng.choice((0, 8, 24, 31, 32, 33, 64, 127, 128, 129, 255, rng.randrange(256)))
        word = f"v{4 if family == 2 else 6}:{octets.hex()}/{mask}"
        return d.inet_draft(family, mask, rng.choice((0, 0, 1, 255)), octets), "inet_to_sql " + word


BOTTOMS = ["int4", "int8", "text", "point", "box", "path", "varbit", "hstore", "inet"]


class Piles(Maker):
    """Layers of arrays and ranges over one kind of value."""

    def pile(self):
        rng = self.rng
        pile = rng.choice(BOTTOMS)
        for _ in range(rng.choice((0, 1, 1, 2, 2, 3, 4))):
            pile = f"{rng.choice(('array', 'range'))}({pile})"
        return pile

    def value(self, pile):
        layer, _, below = pile.partition("(")
        if layer == "array" and below:
            items = [self.nullable(lambda: self.value(below[:-1])) for _ in range(self.rng.randrange(4))]
            return d.array_draft(23, [(len(items), 1)], items)
        if layer == "range" and below:
            tag = self.rng.choice(TAGS)
            bounds = [b for b in (8, 16) if not tag & b]
            return d.range_draft(tag, [self.nullable(lambda: self.value(below[:-1])) for _ in bounds])
        if pile in ("int4", "int8"):
            return d.Draft().raw(self.rng.randbytes(int(pile[-1])))
        return self.make(pile)[0]

    def request(self):
        pile = self.pile()
        draft = self.value(pile)
        data = draft.data if self.rng.random() < 0.4 else d.some_damage(self.rng, draft)
        return f"check {pile} x{data.hex()}"

