"""The types that are sent to the server: their models, and values of them at random."""

from dataclasses import dataclass

from . import draft as d
from . import model as m
from .maker import Maker

# A range type without a canonical form, and one whose bounds differ in length.
SCHEMA = [
    "CREATE EXTENSION hstore",
    "CREATE TYPE plainrange AS RANGE (subtype = int4)",
    "CREATE TYPE textrange AS RANGE (subtype = text)",
]

# The types, each with the request that reads it.
ARRAYS = ["int4", "int8", "text", "int4range"]
RANGES = ["int4range", "int8range", "daterange", "plainrange", "textrange"]
READS = {name + "[]": "array" for name in ARRAYS} | {name: "range" for name in RANGES}
READS |= {name: name for name in ("text", "hstore", "varbit", "point", "box", "path", "inet")} | {"cidr": "inet"}

# The days that PostgreSQL can count, from the first of January 2000 on.
DATE = m.Int(4, least=-2451545, end=2145031949)


@dataclass
class Kind:
    """A type of the server, the requests that read it, the pile that `check` is asked, its model and
    how a value is made."""

    type: str
    read: str
    pile: str
    model: object
    make: object


class Typed(Maker):
    """Values whose payloads are of the type's own elements."""

    def small(self, size):
        """A number near others, so that bounds meet, or one at the edge of its type."""
        rng = self.rng
        top = 2 ** (8 * size - 1)
        number = rng.choice((*range(-2, 4), rng.randrange(-top, top), top - 1, top - 2, -top))
        return number.to_bytes(size, "big", signed=True)

    def date(self):
        rng = self.rng
        edges = (-2451546, -2451545, 2145031948, 2145031949, d.INT_MAX, d.INT_MIN, rng.randrange(9999))
        return rng.choice((0, 1, 2, *edges)).to_bytes(4, "big", signed=True)

    def letters(self):
        return self.rng.choice((b"", b"a", b"b", b"ab", "ä".encode(), b"a\0", b"\xff", self.characters()))

    def array_of(self, oid, element):
        rng = self.rng
        dimensions, count = self.dimensions()
        items = [self.nullable(element) for _ in range(count)]
        flag = None if rng.random() < 0.7 else rng.choice((0, 1, 2, -1))
        return d.array_draft(oid if rng.random() < 0.97 else 26, dimensions, items, flag)

    def range_of(self, bound):
        rng = self.rng
        tag = rng.randrange(256) if rng.random() < 0.2 else rng.choice((0, 2, 4, 6, 8, 10, 12, 16, 18, 20, 24))
        bounds = [] if tag & 1 else [b for b in (8, 16) if not tag & b]
        return d.range_draft(tag, [None if rng.random() < 0.02 else bound() for _ in bounds])


def kinds(rng, oids):
    """Every type, with the OIDs that the server has for the elements of its arrays."""
    typed = Typed(rng)
    elements = {
        "int4": ("int4", m.Int(4), lambda: typed.small(4)),
        "int8": ("int8", m.Int(8), lambda: typed.small(8)),
        "text": ("text", m.Text(), typed.letters),
        "date": ("int4", DATE, typed.date),
    }
    elements["int4range"] = "range(int4)", m.Range(m.Int(4), True), lambda: typed.range_of(elements["int4"][2])
    yield Kind("text", "text", "text", m.Text(), lambda: d.Draft().raw(typed.letters()))
    for name in ARRAYS:
        pile, model, make = elements[name]
        maker = lambda make=make, oid=oids[name]: typed.array_of(oid, make)
        yield Kind(name + "[]", "array", f"array({pile})", m.Array(model, oids[name]), maker)
    for name, bound in zip(RANGES, ("int4", "int8", "date", "int4", "text")):
        pile, model, make = elements[bound]
        canonical = name not in ("plainrange", "textrange")
        maker = lambda make=make: typed.range_of(make)
        yield Kind(name, "range", f"range({pile})", m.Range(model, canonical), maker)
    for name, model in plain_models():
        yield Kind(name, READS[name], READS[name], model, lambda read=READS[name]: typed.make(read)[0])


def plain_models():
    yield "hstore", m.Hstore()
    yield "varbit", m.Varbit()
    yield "point", m.Doubles()
    yield "box", m.Box()
    yield "path", m.Path(5)
    yield "inet", m.Inet()
    yield "cidr", m.Cidr()
