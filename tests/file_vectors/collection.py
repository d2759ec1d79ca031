"""The list of vectors, and the test that the model agrees with the author of each."""

from collections import Counter, namedtuple

import model
from vectors import Vectors

FLAT, TREE = 1, 65
LARGEST_FILE = 500000

Vector = namedtuple("Vector", "call name expected file")


class Collection(Vectors):
    largest_stream = 2500000

    def __init__(self):
        super().__init__()
        self.given = set()

    def add(self, call, name, expected, data):
        """A file for a call, with the number that its author expects: 0 for accepted.

        A surprise stops the making: then document 01 is read again, and author or model mended."""
        name = "%s: %s" % ("flat" if call == FLAT else "tree", name)
        found = model.verdict(data, call)
        if found != expected:
            raise SystemExit("%s: the author expects %d, the model answers %d" % (name, expected, found))
        self.take_name(name)
        if len(data) > LARGEST_FILE:
            raise SystemExit("%s: %d bytes" % (name, len(data)))
        self.given.add((call, data))
        self.vectors.append(Vector(call, name, expected, data))

    def flat(self, name, expected, data):
        self.add(FLAT, name, expected, data)

    def tree(self, name, expected, data):
        self.add(TREE, name, expected, data)

    def parts(self, v):
        return [bytes([v.call, v.expected]), len(v.file).to_bytes(4, "big"), v.file]

    def row(self, v):
        return v.expected, len(v.file), v.name

    def counts(self):
        """A line for each answer: how many vectors of each call expect it."""
        times = Counter((v.expected, v.call) for v in self.vectors)
        lines = ["| Answer | check_flat | check_tree |", "|---|---|---|"]
        for expected in sorted({e for e, _ in times}):
            lines.append("| %s | %d | %d |" % (expected or "accepted", times[expected, FLAT], times[expected, TREE]))
        lines.append("| together | %d | %d |" % tuple(sum(n for (_, c), n in times.items() if c == call)
                                                      for call in (FLAT, TREE)))
        return "\n".join(lines)
