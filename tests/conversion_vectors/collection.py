"""The list of vectors. The result of each is the Rust original's; where it has no answer, the number is the model's."""

from collections import Counter, namedtuple

import model
from vectors import Vectors

LARGEST_FILE = 65536
CALLS = {"to-flat": 1, "to-tree": 2, "resolve-flat": 3, "resolve-tree": 4, "prune": 5}

Vector = namedtuple("Vector", "name call entries room refusal file result")


def by_model(call, data, entries, room):
    """(refusal, result) by the model; room None is enough."""
    try:
        if call == "prune":
            return 0, model.prune(data, entries, room)
        return 0, getattr(model, call.replace("-", "_"))(data, room)
    except model.Refusal as refusal:
        return refusal.number, b""


class Collection(Vectors):
    def __init__(self, original):
        super().__init__()
        self.original = original

    def add(self, name, call, data, expected=None, entries=(), room=None):
        """A file for a call. Author, original and model must agree as far as each has an answer, else the making stops."""
        self.take_name(name)
        refusal, result = by_model(call, data, entries, room)
        if expected not in (None, refusal):
            raise SystemExit("%s: the author expects %d, the model answers %d" % (name, expected, refusal))
        if refusal == 0:
            given = self.original.ask(" ".join([call] + [str(e) for e in entries]), data)
            if given != result:
                raise SystemExit("%s: the original's result is not the model's" % name)
            if room is None:
                room = len(given) + len(self.vectors) % 3
        if len(data) > LARGEST_FILE or len(result) > LARGEST_FILE:
            raise SystemExit("%s: %d bytes" % (name, len(data)))
        self.vectors.append(Vector(name, CALLS[call], tuple(entries), 4096 if room is None else room, refusal, data, result))

    def both_rooms(self, name, call, data, entries=()):
        """A result, and the 15 of an output that is one byte too short for it."""
        self.add(name, call, data, None, entries)
        made = self.vectors[-1]
        if made.refusal == 0:
            self.add(name + ", a byte short", call, data, 15, entries, len(made.result) - 1)

    def parts(self, v):
        numbers = ((v.call, 1), (v.refusal, 1), (len(v.file), 4), (v.room, 4), (len(v.result), 4), (len(v.entries), 2))
        return [n.to_bytes(size, "big") for n, size in numbers + tuple((e, 2) for e in v.entries)] + [v.file, v.result]

    def row(self, v):
        return v.call, v.refusal, len(v.file), v.name

    def counts(self):
        names = {number: call for call, number in CALLS.items()}
        times = Counter((v.call, v.refusal) for v in self.vectors)
        answers = sorted({v.refusal for v in self.vectors})
        lines = ["| Answer | " + " | ".join(names[c] for c in sorted(names)) + " |", "|---" * (len(names) + 1) + "|"]
        for answer in answers:
            lines.append("| %s | %s |" % (answer or "a result", " | ".join(str(times[c, answer]) for c in sorted(names))))
        return "\n".join(lines)
