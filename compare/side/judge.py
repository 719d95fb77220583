"""Compares two answers to a request, and counts."""

import re
from collections import Counter, defaultdict

from .draft import NAN

NEGATIVE_COUNT = "path count below 0"
ODD_TAG = "odd range tag other than 1"
NAN_BITS = "bits of a NaN to write"
SHOWN = 10

FAULT = re.compile(r"(refused |!)\d+@\d+/\d+")
WORD = re.compile(r"[0-9a-f]{16}")


def bare(answer):
    """An answer without the numbers of its fault, which the crate does not have."""
    if "@" not in answer:
        return answer
    return FAULT.sub(lambda match: match.group(1).strip(), answer)


def skipped(request):
    """The listed difference that a request falls under, or None."""
    name, _, rest = request.partition(" ")
    if name == "check":
        pile, _, value = rest.partition(" ")
        return skipped_pile(pile, bytes.fromhex(value[1:]))
    if name == "path_from_sql":
        return skipped_pile("path", bytes.fromhex(rest[1:11]))
    if name == "range_from_sql":
        return skipped_pile("range(int4)", bytes.fromhex(rest[1:3]))
    if name in ("point_to_sql", "box_to_sql", "path_to_sql"):
        return NAN_BITS if any(map(odd_nan, WORD.findall(rest))) else None
    return None


def odd_nan(word):
    return int(word, 16) & (2**63 - 1) > 0x7FF << 52 and word != NAN


def skipped_pile(pile, value):
    """Looks for a listed difference at every level of a value."""
    layer, _, below = pile.partition("(")
    if pile == "path":
        return NEGATIVE_COUNT if len(value) >= 5 and value[1] >= 0x80 else None
    if layer == "range" and value and value[0] % 2 == 1:
        return ODD_TAG if value[0] != 1 else None
    for payload in payloads(layer, value) if below else ():
        found = skipped_pile(below[:-1], payload)
        if found:
            return found
    return None


def payloads(layer, value):
    """The payloads in an array or a range, as far as they are there."""
    if layer == "range":
        place = 1
    else:
        place = 12 + 8 * int.from_bytes(value[:4], "big")
    while place + 4 <= len(value):
        length = int.from_bytes(value[place : place + 4], "big", signed=True)
        place += 4
        if length >= 0:
            yield value[place : place + length]
            place += length


class Tally:
    """Counts by function; the first differences are shown."""

    def __init__(self):
        self.compared = Counter()
        self.different = Counter()
        self.skipped = Counter()
        self.reasons = Counter()
        self.unanswered = Counter()
        self.examples = defaultdict(list)

    def add(self, request, ours, theirs):
        name = request.partition(" ")[0]
        reason = skipped(request)
        if reason:
            self.skipped[name] += 1
            self.reasons[name, reason] += 1
            return
        self.compared[name] += 1
        if ours == theirs or bare(ours) == theirs:
            return
        if ours == "bad request":
            self.unanswered[name] += 1
        self.different[name] += 1
        if len(self.examples[name]) < SHOWN:
            self.examples[name].append((request, ours, theirs))

    def set_apart_absent(self):
        """Takes out the functions that our program lacks: all their requests were bad ones."""
        absent = {n: c for n, c in self.unanswered.items() if c == self.compared[n]}
        for name in absent:
            for counts in (self.compared, self.different, self.skipped, self.examples):
                counts.pop(name, None)
        return absent

    def print(self):
        for name, examples in sorted(self.examples.items()):
            for request, ours, theirs in examples:
                print(f"different: {shortened(request)}\n  ours   {shortened(ours)}\n  crate  {shortened(theirs)}")
        for name in sorted(set(self.compared) | set(self.skipped)):
            print(line(name, self.compared[name], self.different[name], self.skipped[name]))
        for (name, reason), count in sorted(self.reasons.items()):
            if name in self.skipped:
                print(f"skipped: {name}: {reason}: {count}")
        print(line("total", *(sum(c.values()) for c in (self.compared, self.different, self.skipped))))


def line(name, compared, different, skipped):
    return f"{name:<20} {compared} compared, {different} different, {skipped} skipped"


def shortened(text):
    return text if len(text) <= 400 else f"{text[:400]}... ({len(text)} characters)"
