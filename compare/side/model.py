"""The listed differences, as rules: what PostgreSQL sends back for a value that our layouts allow.

Each class stands for a type. `receive` gives the bytes that the server is to send back and adds the
name of every difference that came into play, or raises `Refuse` with the name of the one for which
the server refuses. It is asked only about bytes that our program read to the end, and only where the
server did something else: with no difference in play, the two must agree to the byte.
"""

import math
import struct

SIX = "more than six dimensions"
FLAG = "flag word of an array"
OID = "element OID"
FIT = "lower bound and length"
SHORT_NULL = "length below -1"
NO_ITEMS = "dimension of length 0"
PAYLOAD = "payload not looked at"
NULL_BOUND = "NULL as a bound"
ORDER = "order of the bounds"
NO_POINTS = "range without points"
CANONICAL = "canonical range"
SURPLUS = "bytes behind a bound's value"
DATE = "date out of range"
PADDING = "padding bits"
NO_PATH = "path without points"
CORNERS = "corners of a box"
PAIRS = "order and uniqueness of keys"
NUL = "NUL in text"
NAN = "bits of a NaN"
CIDR = "cidr"

INT_MAX = 2**31 - 1


# Types below this OID are the same in every database; only between these does an array's OID count.
BUILT_IN = 10000


class Refuse(Exception):
    """The server refuses, for a listed difference."""


class Malformed(Exception):
    """The bytes are no layout: no difference is in play."""


def word(data, place):
    return int.from_bytes(data[place : place + 4], "big", signed=True)


def packed(number):
    return number.to_bytes(4, "big", signed=True)


def item_at(data, place):
    """A length word's number, its payload, and the place behind."""
    length = word(data, place)
    end = place + 4 + max(length, 0)
    if end > len(data):
        raise Malformed
    return length, data[place + 4 : end], end


class Model:
    def ours(self, sent_back):
        """What our layouts have in place of what the server sends."""
        return sent_back


class Int(Model):
    """A signed number of a fixed size; a date is one with limits."""

    def __init__(self, size, least=None, end=None):
        self.size, self.least, self.end = size, least, end

    def receive(self, data, names):
        if len(data) != self.size:
            raise Refuse(PAYLOAD)
        if not self.fits(self.key(data)):
            raise Refuse(DATE)
        return data

    def receive_bound(self, data, names):
        if len(data) > self.size:
            names.add(SURPLUS)
        return self.receive(data[: self.size], names)

    def key(self, data):
        return int.from_bytes(data, "big", signed=True)

    def infinite(self, number):
        return self.least is not None and number in (-INT_MAX - 1, INT_MAX)

    def fits(self, number):
        return self.least is None or self.infinite(number) or self.least <= number < self.end

    def next(self, data):
        number = self.key(data)
        if self.infinite(number):
            return data
        if number + 1 >= 2 ** (8 * self.size - 1) or not self.fits(number + 1):
            raise Refuse(CANONICAL)
        return (number + 1).to_bytes(self.size, "big", signed=True)


class Text(Model):
    def receive(self, data, names):
        if b"\0" in data:
            raise Refuse(NUL)
        try:
            data.decode()
        except UnicodeDecodeError:
            raise Refuse(PAYLOAD) from None
        return data

    receive_bound = receive

    def key(self, data):
        return data


class Array(Model):
    def __init__(self, element, oid):
        self.element, self.oid = element, oid

    def receive(self, data, names):
        count, flag, oid = struct.unpack_from("!iiI", data)
        dimensions = [struct.unpack_from("!ii", data, 12 + 8 * i) for i in range(min(count, 6))]
        if count > 6:
            raise Refuse(SIX)
        if flag not in (0, 1):
            raise Refuse(FLAG)
        if oid != self.oid:
            names.add(OID)
            if oid < BUILT_IN and self.oid < BUILT_IN:
                raise Refuse(OID)
        if any(length + lower > INT_MAX for length, lower in dimensions):
            raise Refuse(FIT)
        if count and math.prod(length for length, _ in dimensions) == 0:
            names.add(NO_ITEMS)
            return struct.pack("!iiI", 0, 0, self.oid)
        items, null = self.items(data, 12 + 8 * count, names)
        if flag != null:
            names.add(FLAG)
        return struct.pack("!iiI", count, null, self.oid) + data[12 : 12 + 8 * count] + items

    def items(self, data, place, names):
        out, null = b"", 0
        while place < len(data):
            length, payload, place = item_at(data, place)
            if length < -1:
                raise Refuse(SHORT_NULL)
            if length < 0:
                out, null = out + packed(-1), 1
            else:
                payload = self.payload(payload, names)
                out += packed(len(payload)) + payload
        return out, null

    def payload(self, payload, names):
        """What the server makes of a payload; an array of ours keeps it as it is."""
        try:
            made = self.element.receive(payload, names)
        except Malformed:
            raise Refuse(PAYLOAD) from None
        if made != payload:
            names.add(PAYLOAD)
        return made


class Range(Model):
    def __init__(self, bound, canonical):
        self.bound, self.canonical = bound, canonical

    def receive(self, data, names):
        if not data or data[0] & 1 and len(data) > 1:
            raise Malformed
        tag, place, sides = data[0], 1, []
        if tag & 1:
            return b"\1"
        for unbounded, inclusive in ((8, 2), (16, 4)):
            if tag & unbounded:
                sides.append(None)
                continue
            length, payload, place = item_at(data, place)
            if length < 0:
                raise Refuse(NULL_BOUND)
            sides.append((self.bound.receive_bound(payload, names), bool(tag & inclusive)))
        if place != len(data):
            raise Malformed
        return self.send(*sides, names)

    def send(self, lower, upper, names):
        if self.empty(lower, upper, names):
            return b"\1"
        if self.canonical:
            lower, upper = self.step(lower, True, names), self.step(upper, False, names)
            if self.empty(lower, upper, names):
                return b"\1"
        tag = (8 if lower is None else 2 * lower[1]) | (16 if upper is None else 4 * upper[1])
        bounds = (packed(len(side[0])) + side[0] for side in (lower, upper) if side is not None)
        return bytes([tag]) + b"".join(bounds)

    def empty(self, lower, upper, names):
        if lower is None or upper is None:
            return False
        first, last = self.bound.key(lower[0]), self.bound.key(upper[0])
        if first > last:
            raise Refuse(ORDER)
        if first == last and not (lower[1] and upper[1]):
            names.add(NO_POINTS)
            return True
        return False

    def step(self, side, inclusive, names):
        """A bound in canonical form: lower inclusive, upper exclusive."""
        if side is None or side[1] == inclusive or self.bound.infinite(self.bound.key(side[0])):
            return side
        names.add(CANONICAL)
        return self.bound.next(side[0]), inclusive


class Hstore(Model):
    def receive(self, data, names, back=b""):
        """Keys by length, then by bytes; of equal keys, the server keeps whichever it likes."""
        sent, kept = self.entries(data), dict(self.entries(back) if back else ())
        for text in (text for entry in sent for text in entry if text is not None):
            Text().receive(text, names)
        keys = sorted({key for key, _ in sent}, key=lambda key: (len(key), key))
        if keys != [key for key, _ in sent]:
            names.add(PAIRS)
        out = packed(len(keys))
        for key in keys:
            values = [value for other, value in sent if other == key]
            value = kept[key] if kept.get(key, b"") in values and key in kept else values[0]
            out += packed(len(key)) + key
            out += packed(-1) if value is None else packed(len(value)) + value
        return out

    def entries(self, data):
        place, entries = 4, []
        while place < len(data):
            _, key, place = item_at(data, place)
            length, value, place = item_at(data, place)
            entries.append((key, None if length < 0 else value))
        return entries


class Varbit(Model):
    def receive(self, data, names):
        over = -word(data, 0) % 8
        if not over or not data[-1] & (1 << over) - 1:
            return data
        names.add(PADDING)
        return data[:-1] + bytes([data[-1] >> over << over])


class Doubles(Model):
    """A point, or any run of doubles behind a head that is not one."""

    def __init__(self, head=0):
        self.head = head

    def receive(self, data, names):
        if self.ours(data) != data:
            names.add(NAN)
        return data

    def ours(self, data):
        """One NaN in place of any other."""
        words = struct.iter_unpack("!d", data[self.head :])
        pairs = zip(words, struct.iter_unpack("8s", data[self.head :]))
        one = bytes.fromhex("7ff8000000000000")
        return data[: self.head] + b"".join(one if math.isnan(x) else raw for (x,), (raw,) in pairs)


class Box(Doubles):
    def receive(self, data, names):
        super().receive(data, names)
        high, low = [data[:8], data[8:16]], [data[16:24], data[24:]]
        for i in range(2):
            if below(*struct.unpack("!dd", high[i] + low[i])):
                names.add(CORNERS)
                high[i], low[i] = low[i], high[i]
        return b"".join(high + low)


def below(x, y):
    """Whether x is less than y, NaN being the greatest."""
    return not math.isnan(x) and (math.isnan(y) or x < y)


class Path(Doubles):
    def receive(self, data, names):
        if word(data, 1) == 0:
            raise Refuse(NO_PATH)
        return super().receive(bytes([data[0] != 0]) + data[1:], names)


class Inet(Model):
    def receive(self, data, names):
        return data[:2] + b"\0" + data[3:]


class Cidr(Inet):
    def receive(self, data, names):
        names.add(CIDR)
        bits = 8 * data[3] - data[1]
        if int.from_bytes(data[4:], "big") & (1 << bits) - 1:
            raise Refuse(CIDR)
        return data[:2] + b"\1" + data[3:]

    def ours(self, sent_back):
        return sent_back[:2] + b"\0" + sent_back[3:]
