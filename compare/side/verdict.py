"""Compares what the server does with a value with what our program does, and counts."""

import struct
from collections import Counter

from .client import Refused
from .judge import SHOWN, shortened, skipped_pile
from .model import PAYLOAD, Malformed, Refuse


class Verdicts:
    """Counts for one type; the first differences that are not listed are shown."""

    def __init__(self, kind, crate):
        self.kind, self.crate = kind, crate
        self.compared = 0
        self.different = 0
        self.listed = 0
        self.names = Counter()
        self.first = {}
        self.examples = []

    def add(self, sent, outcome, ours, again):
        """`ours` is what our program writes for what it reads from the bytes sent, `again` the same
        for the bytes that the server sent back; None where it refuses."""
        self.compared += 1
        refused = isinstance(outcome, Refused)
        if ours is None if refused else ours == outcome == again:
            return
        expected, names = self.expected(sent, b"" if refused else outcome)
        fits = expected is None if refused else expected == outcome and again == self.kind.model.ours(outcome)
        if ours is not None and names and fits:
            self.list(names, sent, outcome)
        else:
            self.unlisted(sent, outcome, ours, again)

    def add_check(self, sent, outcome, accepted):
        """The same for a whole pile: accepted or not."""
        self.compared += 1
        refused = isinstance(outcome, Refused)
        if accepted != refused:
            return
        expected, names = self.expected(sent, b"")
        names.discard(PAYLOAD)
        if names and (expected is None) == refused:
            self.list(names, sent, outcome)
        else:
            self.unlisted(sent, outcome, "accepted" if accepted else "refused", None)

    def expected(self, sent, back):
        """What the listed differences let the server send back, None where it refuses, and their names."""
        names = set()
        try:
            return self.kind.model.receive(sent, names, *([back] if self.kind.read == "hstore" else [])), names
        except Refuse as refusal:
            return None, {refusal.args[0]}
        except (Malformed, struct.error, IndexError):
            return None, set()

    def list(self, names, sent, outcome):
        self.listed += 1
        self.names.update(names)
        for name in names:
            held = self.first.get(name)
            if held is None or len(sent) < len(held[0]):
                self.first[name] = sent, outcome

    def unlisted(self, sent, outcome, ours, again):
        odd = self.crate and skipped_pile(self.kind.pile, sent)
        if odd:
            self.list({odd}, sent, outcome)
            return
        self.different += 1
        if len(self.examples) < SHOWN:
            self.examples.append((sent, outcome, ours, again))

    def print(self, names):
        for sent, *rest in self.examples:
            server, ours, again = map(shown, rest)
            print(f"different: {self.kind.type} {shown(sent)}\n  server  {server}\n  ours    {ours}\n  again   {again}")
        for name, (sent, outcome) in sorted(self.first.items()) if names else ():
            print(f"  {name}: {self.names[name]}, such as {shown(sent)}: {shown(outcome)}")
        counts = f"{self.compared} compared, {self.different} different, {self.listed} listed"
        print(f"{self.kind.type:<12} {counts}", flush=True)


def shown(what):
    if isinstance(what, bytes):
        return shortened("x" + what.hex())
    if isinstance(what, Refused):
        return "refused " + " ".join(what.args)
    return "refused" if what is None else what
