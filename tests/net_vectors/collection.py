"""The list of vectors. The result of each is the Rust original's; where it has no answer, the number is the model's."""

from collections import Counter, namedtuple

import model
from vectors import Vectors

NONE = 0xFFFFFFFF
LARGEST_FILE = 65536
MOST_CUT = 80           # steps; a longer run is not cut into slices of 1

Vector = namedtuple("Vector", "name pools room cut refusal steps file result")


def with_limit(data, limit):
    return data[:5] + limit.to_bytes(4, "big") + data[9:]


class Watched(model.Engine):
    """The model, which counts what its runs meet."""

    met = Counter()

    def note(self, what):
        Watched.met[what] += 1

    def _annihilate(self, a, b):
        self.note("annihilate")
        return super()._annihilate(a, b)

    def _erase(self, net, eraser, node):
        self.note("erase")
        return super()._erase(net, eraser, node)

    def _commute(self, net, a, b):
        self.note("commute")
        return super()._commute(net, a, b)

    def _eta(self, rule, net, a):
        how = self.can_eta(rule, a)
        if how:
            self.note("eta, " + how[0])
        return super()._eta(rule, net, a)

    def _graft(self, rule, net, slot):
        waits, node = self.waits, self.slots[slot]
        acted = super()._graft(rule, net, slot)
        named = self.lookup.get(node.name.children[0]) if node.name.children else None
        if acted:
            self.note("graft, lazy" if rule.lazy else "graft")
        elif self.waits > waits:
            self.note("wait on its own net" if named == net else "wait")
            if any(owner == named for _, owner in self.nets[net].waits):
                self.note("wait, mutual")
        elif rule.lazy and node.ports[0][1] != 0:
            self.note("graft, lazy, does not reach")
        elif named is None:
            self.note("graft of a net that is not included")
        return acted

    def _link(self, a, b):
        if self._across(a) == b:
            self.note("circle")
        return super()._link(a, b)

    def _tighten_dirty(self):
        self.note("dirty list tightened")
        return super()._tighten_dirty()

    def _tighten_net(self, net):
        if self.nets[net].list.stale:
            self.note("node list tightened")
        return super()._tighten_net(net)


def by_model(data, pools, room):
    """(refusal, steps, result) by the model; room None is enough."""
    engine = None
    try:
        engine = Watched.begin(data, pools)
        engine.slice(NONE)
        return 0, engine.steps, engine.finish(room)
    except model.Refusal as refusal:
        return refusal.number, engine.steps if engine else 0, b""


class Collection(Vectors):
    def __init__(self, original):
        super().__init__()
        self.original = original

    def add(self, name, data, pools, expected=None, room=None, endless=False):
        """A file for a run. Author, original and model must agree as far as each has an answer, else the making stops.

        Where `endless` is said, the run goes to its 14 and is not tried in the model, which is too slow for it."""
        self.take_name(name)
        refusal, steps, result = (14, model.MOST, b"") if endless else by_model(data, pools, room)
        if expected not in (None, refusal):
            raise SystemExit("%s: the author expects %d, the model answers %d" % (name, expected, refusal))
        if refusal == 0:
            given = self.original.ask("optimize", data)
            if given != result:
                raise SystemExit("%s: the original's result is not the model's" % name)
            if room is None:
                room = len(given) + len(self.vectors) % 3
        if len(data) > LARGEST_FILE:
            raise SystemExit("%s: %d bytes" % (name, len(data)))
        room = 4096 if room is None else room
        cut = not endless and steps <= MOST_CUT
        self.vectors.append(Vector(name, pools, room, cut, refusal, steps, data, result))

    def parts(self, v):
        numbers = ((len(v.file), 4), (v.pools[0], 2), (v.pools[1], 2), (v.pools[2], 2), (int(v.cut), 1), (v.refusal, 1),
                   (v.steps, 4), (v.room, 4), (len(v.result), 4))
        return [n.to_bytes(size, "big") for n, size in numbers] + [v.file, v.result]

    def row(self, v):
        return v.refusal, v.steps, v.pools, len(v.file), v.name

    def counts(self):
        lines = ["| Answer | Files |", "|---|---|"]
        times = Counter(v.refusal for v in self.vectors)
        lines += ["| %s | %d |" % (refusal or "a result", times[refusal]) for refusal in sorted(times)]
        lines += ["", "| Met in the runs | Times |", "|---|---|"]
        lines += ["| %s | %d |" % pair for pair in sorted(Watched.met.items())]
        return "\n".join(lines)
