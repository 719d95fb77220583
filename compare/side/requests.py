"""The requests of a run, the same for the same count and seed."""

import random
from itertools import product

from . import draft as d
from .maker import Maker, Piles

# At least this share of a run is made at random.
RANDOM_SHARE = 0.2


def requests(count, seed, longest, check):
    """So many requests: those that are always the same, thinned where they are too many, and others
    at random."""
    fixed = sum(1 for _ in systematic(longest))
    kept = min(1, count * (1 - RANDOM_SHARE) / fixed)
    thin, rng = random.Random(f"{seed} thin"), random.Random(f"{seed} values")
    made = 0
    for request in systematic(longest):
        if kept == 1 or thin.random() < kept:
            made += 1
            yield request
    yield from at_random(rng, count - made, check)


def at_random(rng, count, check):
    maker, piles = Maker(rng), Piles(rng)
    for _ in range(count):
        if check and rng.random() < 0.3:
            yield piles.request()
            continue
        kind = rng.choice(d.READ)
        draft, writing = maker.make(kind)
        way = rng.random()
        if way < 0.3 and writing is not None:
            yield writing
        elif way < 0.5:
            yield reading(kind, draft.data)
        elif way < 0.95:
            yield reading(kind, d.some_damage(rng, draft))
        else:
            yield reading(kind, rng.randbytes(rng.randrange(64)))


def reading(kind, data):
    return f"{kind}_from_sql x{data.hex()}"


def systematic(longest):
    yield from short()
    yield from lengths()
    for kind, draft in specimens():
        for data in d.every_damage(draft):
            yield reading(kind, data)
    for text in texts():
        yield reading("text", text)
    yield from hstore_texts()
    yield from inets()
    yield from writing()
    yield from long(longest)


def short():
    """All byte strings of at most two bytes."""
    strings = [f"{n:0{2 * size}x}" if size else "" for size in range(3) for n in range(256**size)]
    for kind in d.READ:
        name = kind + "_from_sql x"
        for string in strings:
            yield name + string


def lengths():
    """Plain bytes of every length around every field."""
    patterns = [bytes(128), b"\xff" * 128, b"\0\0\0\1" * 32, b"\1" * 128, b"\2\x18\0\4" * 32]
    for kind, pattern, size in product(d.READ, patterns, range(3, 128)):
        yield reading(kind, pattern[:size])


def specimens():
    """Values to damage in every way, and to read as every kind once."""
    yield from (("array", draft) for draft in arrays())
    yield from (("range", draft) for draft in ranges())
    yield from (("hstore", draft) for draft in hstores())
    for bits in (0, 1, 7, 8, 9, 10, 16, 17, 64):
        yield "varbit", d.varbit_draft(bits, b"\xa5" * ((bits + 7) // 8))
    doubles = d.DOUBLES
    for i in range(0, len(doubles), 4):
        yield "point", d.doubles_draft(doubles[i : i + 2])
        yield "box", d.doubles_draft(doubles[i : i + 4])
    for closed, count in product((0, 1, 2, 255), range(4)):
        yield "path", d.path_draft(closed, [(doubles[i], doubles[-1 - i]) for i in range(count)])
    yield "inet", d.inet_draft(2, 24, 0, bytes([192, 0, 2, 7]))
    yield "inet", d.inet_draft(3, 64, 1, bytes(range(16)))


def arrays():
    four, empty = b"\0\0\0\7", b""
    yield d.array_draft(23, [], [])
    yield d.array_draft(23, [(0, 1)], [])
    yield d.array_draft(23, [(2, 1)], [four, None])
    yield d.array_draft(25, [(2, -1), (2, 0)], [empty, b"a", None, b"rye flour"])
    yield d.array_draft(23, [(1, 1)] * 3, [four])
    yield d.array_draft(23, [(1, 1)] * 6, [four])
    yield d.array_draft(23, [(1, 1)] * 7, [four])
    yield d.array_draft(4294967295, [(1, d.INT_MAX)], [four], flag=2)
    yield d.array_draft(23, [(1, d.INT_MIN)], [None], flag=0)
    # Products that are too great, or are saved by a zero, in every order.
    for lengths in ((d.INT_MAX, 0), (0, d.INT_MAX), (d.INT_MAX, 1), (d.INT_MAX, 2, 0), (0, d.INT_MAX, 2)):
        yield d.array_draft(23, [(length, 1) for length in lengths], [])
    for lengths in ((65536, 32768), (46340, 46341), (46341, 46341), (134217727,), (134217728,), (0, -1)):
        yield d.array_draft(23, [(length, 1) for length in lengths], [])


def ranges():
    """Every tag with no bound, with one, and with two."""
    values = (b"\0\0\0\3", b"\0\0\0\t")
    for tag in range(256):
        yield d.range_draft(tag, values[: 2 - bool(tag & 8) - bool(tag & 16)])
    for tag, bounds in product((0, 1, 2, 4, 6, 8, 16, 24), ([], [None], [b""], [None, None], [b"", b"a"])):
        yield d.range_draft(tag, bounds)


def hstores():
    yield d.hstore_draft([])
    yield d.hstore_draft([(b"", b"")])
    yield d.hstore_draft([(b"a", None), (b"b", b"c"), (b"a", b"d")])
    yield d.hstore_draft([("ä".encode(), "\U0010ffff".encode()), (b"\0", b"\0")])
    yield d.hstore_draft([(b"flour", b"rye"), (b"salt", None), (b"", b"0123456789")])


def texts():
    """Every first byte with the bytes at the edges of what may follow it, and each edge of the table
    within plain letters, at every place that a reader of several bytes at once might treat apart."""
    edges = bytes.fromhex("7f808f909fa0bfc0")
    for first, second, third in product(range(256), edges, edges):
        yield bytes([first, second, third])
    for first, *rest in product(range(0xE0, 0x100), edges, edges, edges):
        yield bytes([first, *rest])
    for edge, before, after in product(d.TEXTS + d.NOT_TEXTS, range(18), (0, 1, 16)):
        yield b"a" * before + edge + b"b" * after
    for first, second in product(d.TEXTS + d.NOT_TEXTS, repeat=2):
        yield first + second


def hstore_texts():
    for edge in d.TEXTS + d.NOT_TEXTS:
        for entry in ((edge, b"v"), (b"k", edge), (edge, None), (edge, edge), (b"k" * 17 + edge, b"v")):
            yield reading("hstore", d.hstore_draft([(b"a", b"b"), entry]).data)
            words = [f"{d.printed(key)}={d.printed(value)}" for key, value in ((b"a", b"b"), entry)]
            yield "hstore_to_sql " + d.listed(words)


def inets():
    masks = (0, 1, 24, 31, 32, 33, 64, 127, 128, 129, 255)
    sizes = (0, 3, 4, 5, 15, 16, 17)
    for family, mask, told, size in product((0, 1, 2, 3, 4, 10, 255), masks, range(20), sizes):
        yield reading("inet", bytes([family, mask, 0, told]) + bytes(range(size)))
    for family, third in product((2, 3), range(256)):
        yield reading("inet", d.inet_draft(family, 24, third, bytes(4 if family == 2 else 16)).data)
    for mask in range(256):
        yield f"inet_to_sql v4:c0000207/{mask}"
        yield f"inet_to_sql v6:20010db8000000000000000000000001/{mask}"


def writing():
    """Encoder requests that no value at random would hit on."""
    items = ("[]", "[NULL]", "[x]", "[x00000007]", "[x,NULL,x00]")
    for length, lower, oid in product(d.EXTREMES, (1, d.INT_MIN, d.INT_MAX), (0, 23, 4294967295)):
        for dimensions, list_of in product((f"[{length}:{lower}]", f"[1:1,{length}:{lower}]"), items):
            yield f"array_to_sql {oid} {dimensions} {list_of}"
    yield from (f"array_to_sql 23 {d.listed(['1:1'] * count)} [NULL]" for count in range(40))
    bounds = ["unb"] + [side + value for side in ("inc:", "exc:") for value in ("NULL", "x", "x00000003")]
    yield from (f"range_to_sql {lower} {upper}" for lower, upper in product(bounds, repeat=2))
    yield "empty_range_to_sql"
    counts = [*range(40), *range(d.INT_MAX - 9, d.INT_MAX + 3), 2**32 - 1, 2**32, 2**63, 2**64 - 1]
    yield from (f"varbit_to_sql {bits} x{'a5' * size}" for bits, size in product(counts, range(6)))
    for first, second in product(d.DOUBLES, repeat=2):
        yield f"point_to_sql {first},{second}"
        yield f"box_to_sql {first},{second},{second},{first}"
        yield f"path_to_sql 0 [{first}:{second}]"
        yield f"path_to_sql 1 [{first}:{second},{second}:{first}]"
    yield from ("path_to_sql 0 []", "path_to_sql 1 []", "hstore_to_sql []", "hstore_to_sql [x=x,x=NULL]")


def long(longest):
    """Lines about as long as they may be, and lines near other sizes of buffers."""
    for line in (4096, 65536, longest):
        for more in range(-3, 1):
            room = (line + more - len("hstore_from_sql x")) // 2
            yield reading("text", b"a" * room)
            yield reading("text", b"a" * (room - 1) + b"\xc2")
            yield reading("varbit", d.varbit_draft(8 * (room - 4), b"\xff" * (room - 4)).data)
            yield reading("array", d.array_draft(25, [(1, 1)], [bytes(room - 24)]).data)
            yield reading("range", d.range_draft(18, [bytes(room - 5)]).data)
            yield reading("hstore", d.hstore_draft([(b"k", b"a" * (room - 13))]).data)
            points = (room - 5) // 16
            yield reading("path", d.path_draft(1, [(d.NAN, d.DOUBLES[0])] * points).data)
            nulls = (room - 20) // 4
            yield reading("array", d.array_draft(23, [(nulls, 1)], [None] * nulls).data)
