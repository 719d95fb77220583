"""Values of every kind in bytes, made at random, and ways to damage them."""

READ = ["text", "array", "range", "hstore", "varbit", "point", "box", "path", "inet"]

INT_MAX = 0x7FFFFFFF
INT_MIN = -0x80000000

# Counts and lengths that have been somebody's undoing.
EXTREMES = [0, 1, 2, -1, -2, 4, 6, 7, 8, 16, 0xFF, 0xFFFF, 0x10000, 0x1000000, 0x7FFFFFF, 0x8000000]
EXTREMES += [0x40000000, INT_MAX - 8, INT_MAX - 7, INT_MAX - 1, INT_MAX, INT_MIN, INT_MIN + 1]

# Zeros, ones, the least and greatest of each class, infinities, quiet and signalling NaNs.
DOUBLES = """0000000000000000 8000000000000000 3ff0000000000000 bff0000000000000 0000000000000001
800fffffffffffff 0010000000000000 7fefffffffffffff ffefffffffffffff 7ff0000000000000 fff0000000000000
7ff8000000000000 fff8000000000000 7ff0000000000001 fff8000000000001 7fffffffffffffff ffffffffffffffff
4008000000000000 4022000000000000 0102030405060708""".split()
NAN = "7ff8000000000000"

# The edges of RFC 3629: the least and greatest character of each length, the neighbours of the
# surrogates, and what only looks like a character.
TEXTS = [chr(c).encode() for c in (0, 0x41, 0x7F, 0x80, 0x7FF, 0x800, 0xFFF, 0x1000, 0xD7FF, 0xE000)]
TEXTS += [chr(c).encode() for c in (0xFFFD, 0xFFFF, 0x10000, 0x3FFFF, 0x40000, 0x10FFFF)]
NOT_TEXTS = [bytes.fromhex(h) for h in """80 bf c0 c080 c1bf c2 c27f c2c0 e0 e080 e08080 e09fbf e0a0
e0a07f eda080 edbfbf ef ef80 f0 f0808080 f08fbfbf f09080 f0908041 f4908080 f5808080 f8888080 fe ff""".split()]


class Draft:
    """Bytes under construction that remember where their words stand, so that damage can aim."""

    def __init__(self):
        self.data = bytearray()
        self.words = []

    def word(self, number):
        self.words.append(len(self.data))
        self.data += (number & 0xFFFFFFFF).to_bytes(4, "big")
        return self

    def raw(self, data):
        self.data += data
        return self

    def item(self, payload):
        """A payload, a draft or None behind its length word."""
        if payload is None:
            return self.word(-1)
        if isinstance(payload, Draft):
            self.word(len(payload.data))
            start = len(self.data)
            self.words += [start + place for place in payload.words]
            return self.raw(payload.data)
        return self.word(len(payload)).raw(payload)


def printed(payload):
    return "NULL" if payload is None else "x" + payload.hex()


def listed(words):
    return "[" + ",".join(words) + "]"


def array_draft(oid, dimensions, items, flag=None):
    """An array whose flag says whether an item is NULL, or what it is told to say."""
    flag = int(None in items) if flag is None else flag
    draft = Draft().word(len(dimensions)).word(flag).word(oid)
    for length, lower in dimensions:
        draft.word(length).word(lower)
    for item in items:
        draft.item(item)
    return draft


def range_draft(tag, bounds):
    draft = Draft().raw(bytes([tag]))
    for bound in bounds:
        draft.item(bound)
    return draft


def hstore_draft(entries):
    draft = Draft().word(len(entries))
    for key, value in entries:
        draft.item(key).item(value)
    return draft


def varbit_draft(bits, data):
    return Draft().word(bits).raw(data)


def doubles_draft(words):
    return Draft().raw(bytes.fromhex("".join(words)))


def path_draft(closed, points):
    draft = Draft().raw(bytes([closed])).word(len(points))
    for point in points:
        draft.raw(bytes.fromhex("".join(point)))
    return draft


def inet_draft(family, mask, third, octets):
    return Draft().raw(bytes([family, mask, third, len(octets)]) + octets)


def cuts(data):
    """Every proper beginning, and some continuations."""
    for end in range(len(data)):
        yield data[:end]
    for more in (b"\0", b"\xff", b"\0" * 4, b"\xff" * 4, b"\0\0\0\4\0\0\0\7", b"\0" * 16):
        yield data + more


def changed_bytes(data):
    for place, byte in enumerate(data):
        for other in {byte ^ 1, byte ^ 0x80, (byte + 1) % 256, (byte - 1) % 256, 0, 0xFF} - {byte}:
            yield data[:place] + bytes([other]) + data[place + 1 :]


def changed_words(data, words):
    for place in words:
        old = int.from_bytes(data[place : place + 4], "big")
        for new in {old - 1, old + 1, -old, 2 * old, *EXTREMES}:
            yield put_word(data, place, new)


def put_word(data, place, number):
    return data[:place] + (number & 0xFFFFFFFF).to_bytes(4, "big") + data[place + 4 :]


def every_damage(draft):
    """The value itself and each way of damaging it once."""
    data = bytes(draft.data)
    yield data
    yield from cuts(data)
    yield from changed_bytes(data)
    yield from changed_words(data, draft.words)


def some_damage(rng, draft):
    """The value after one to three ways of damaging it, taken at random."""
    data = bytes(draft.data)
    for _ in range(rng.choice((1, 1, 1, 2, 3))):
        data = damage_once(rng, data, draft.words)
    return data


def damage_once(rng, data, words):
    way = rng.randrange(6)
    place = rng.randrange(len(data) + 1)
    if way == 0:
        return data[:place]
    if way == 1:
        return data[:place] + rng.randbytes(rng.randrange(1, 9)) + data[place:]
    if way == 2:
        return data[:place] + data[place + rng.randrange(1, 5) :]
    if way == 3 or not words:
        return data[:place] + bytes([rng.randrange(256)]) + data[place + 1 :]
    place = rng.choice(words)
    old = int.from_bytes(data[place : place + 4], "big")
    new = rng.choice(EXTREMES) if way == 4 else old + rng.choice((-1, 1))
    return put_word(data, place, new)
