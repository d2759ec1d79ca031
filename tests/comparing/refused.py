"""Damaged files and small pools, held against the model: the number, the steps, and that cuts change nothing.

A run is cut into slices of 1, of 3 and at random places. The model runs it uncut; what each slice must answer follows."""

import gen
import model
from comparing.library import MOST_STEPS, NONE, Different, Lent, Output
from comparing.valid import GREATEST, uncut, with_limit
from comparing.watched import Part

ROOM = 1 << 18          # bytes for a result: more than 4,096 nodes of these files need
BOUND = 400             # steps; a file that goes on longer is given a limit
POOL_RANGES = ((1, 4096), (1, 16384), (0, 4096))


def expected_slices(steps, refusal, cuts):
    """What each slice answers, (refusal, value), if the uncut run takes so many steps and is then refused or at rest."""
    left, answers = steps, []
    for n in cuts:
        if n != NONE and n <= left:
            answers.append((0, n))
            left -= n
        elif refusal:
            return answers + [(refusal, 0)]
        else:
            answers.append((0, left))
            left = 0
    return answers


def ways_to_cut(steps, rng):
    """Lists of slices; those of 1 and 3 go on past the end."""
    yield "slices of 1", [1] * (min(steps, 150) + 2) + [NONE]
    yield "slices of 3", [3] * (min(steps, 300) // 3 + 2) + [NONE]
    cuts, left = [], rng.randint(0, steps + 2)
    while left and len(cuts) < 30:
        cuts.append(rng.randint(0, left))
        left -= cuts[-1]
    yield "random places", cuts + rng.choice([[], [0], [NONE], [NONE, 2]])


def summed(cuts):
    return NONE if NONE in cuts else sum(cuts)


def first_difference(a, b):
    for part, size, x, y in (("word", 4, a[0], b[0]), ("byte", 1, a[1], b[1])):
        for i in range(0, len(x), size):
            if x[i:i + size] != y[i:i + size]:
                return "%s %d is %s and %s" % (part, i // size, x[i:i + size].hex(), y[i:i + size].hex())


class Refused(Part):
    name = "refused"

    def __init__(self, library, seed):
        self.library, self.seed = library, seed

    def start(self):
        self.out = Output()

    def one(self, index, rng, case, counts):
        if index == 0:
            return self.fourteen(case, counts)
        kind = rng.choice(["pools", "pools", "pools", "damaged", "mutated", "known", "arguments"])
        seed = "%s %d" % (self.seed, index)
        pools = (rng.randint(1, 60), rng.randint(1, 200), rng.randint(0, 9))
        if kind == "damaged":
            damaged = rng.choice([c for c in gen.damaged(seed) if len(c.data) < 100000])
            case["label"], data = damaged.label, damaged.data
        elif kind == "mutated":
            case["label"], data = "mutated", gen.mutated(seed)
        elif kind == "known":
            known = rng.choice([c for c in gen.refusals(seed) if c.step_bound is None])
            case["label"], data, pools = known.label, known.data, known.pools
        else:
            make = rng.choice([gen.valid, gen.dense, gen.waits, gen.churn])
            case["label"], data = make.__name__, make(seed).bytes()
        if kind == "arguments" and rng.random() < 0.3:
            data = rng.choice([b"", gen.mutated(seed)])         # what is handed over is looked at before the file
        case["file"] = data
        data = self.ending(data, rng)
        case["file"] = data
        if kind == "pools" or (kind == "arguments" and model.verdict(data) == 0):
            pools = self.close_pools(data, rng)
        case["pools"] = pools
        counts[kind] += 1
        if kind == "arguments":
            self.arguments(data, pools, rng, case)
        else:
            self.cut(data, pools, rng, case, counts)

    def ending(self, data, rng):
        """The file with a limit, if its run does not end soon."""
        if model.verdict(data):
            return data
        try:
            engine = model.Engine.begin(data, GREATEST, BOUND)
            engine.slice(NONE)
        except model.Refusal as refusal:
            if refusal.number == 14:
                return with_limit(data, rng.randint(0, BOUND))
        return data

    def close_pools(self, data, rng):
        """Pools that suffice just so, or of which one is short, or all are ample."""
        engine = None
        try:
            engine = model.Engine.begin(data, GREATEST)
            engine.slice(NONE)
        except model.Refusal:
            if engine is None:
                return GREATEST
        peak = engine.peak
        pools = [peak["nodes"], peak["entries"], peak["waits"]]
        short = rng.choice([0, 1, 2, 3, 4])
        if short < 3:
            pools[short] -= rng.choice([1, 1, 1, 2, max(1, pools[short] // 2)])
        elif short == 4:
            pools = [p + rng.randint(0, 40) for p in pools]
        return tuple(min(max(p, least), most) for p, (least, most) in zip(pools, POOL_RANGES))

    def fourteen(self, case, counts):
        """P8 without a limit: 16,777,216 steps, and with steps over 14."""
        data = next(c.data for c in gen.examples() if c.expect == 14)
        case["label"], case["file"], case["pools"] = "P8, limit none", data, (8, 16, 0)
        lent = Lent(self.library, (8, 16, 0), len(data))
        self.library.begin(lent, data)
        half = MOST_STEPS // 2
        for n, expected in ((half, (0, half)), (half - 1, (0, half - 1)), (1, (0, 1)), (0, (0, 0)), (1, (14, 0)), (1, (16, 0))):
            case["slices"] = n
            got = self.library.slice(lent, n)
            if got != expected:
                raise Different("slice of %d answers %s, expected %s" % (n, got, expected))
        got = self.library.optimize(lent, data, self.out.clear(ROOM))
        if got != (14, 0):
            raise Different("optimize answers %s, expected 14" % (got,))
        counts["refused by 14"] += 1

    # -- cuts

    def cut(self, data, pools, rng, case, counts):
        steps, refusal, result = uncut(data, pools)
        counts["refused by %d" % refusal if refusal else "results"] += 1
        case["expected"] = "refusal %d after %d steps" % (refusal, steps)
        lent = Lent(self.library, pools, len(data))
        number, value = self.library.optimize(lent, data, self.out.clear(ROOM))
        if number != refusal or (number == 0 and self.out.result != result):
            case["got"] = self.out.result if number == 0 else "refusal %d" % number
            raise Different("optimize answers %d, the model %d, or another result" % (number, refusal))
        loaded = self.begun(lent, data, pools)
        if loaded is None:
            return
        for way, cuts in ways_to_cut(steps, rng):
            case["slices"] = way, cuts
            self.same(lent, loaded, steps, refusal, cuts, result)
            counts["slices"] += len(cuts)

    def begun(self, lent, data, pools):
        """The workspace after begin; None if begin is refused, as the model says it is."""
        try:
            model.Engine.begin(data, pools)
            expected = 0
        except model.Refusal as refusal:
            expected = refusal.number
        number, value = self.library.begin(lent, data)
        if (number, value) != (expected, 0):
            raise Different("begin answers %d, the model %d" % (number, expected))
        if number:
            number, _ = self.library.slice(lent, 1)
            if number != 16:
                raise Different("slice after a begin that was refused answers %d" % number)
            return None
        return lent.seen()

    def same(self, lent, loaded, steps, refusal, cuts, result):
        lent.put(loaded)
        for k, (n, expected) in enumerate(zip(cuts, expected_slices(steps, refusal, cuts))):
            got = self.library.slice(lent, n)
            if got != expected:
                raise Different("slice %d, of %d, answers %s, expected %s" % (k, n, got, expected))
            if got[0]:
                for later in (self.library.slice(lent, n)[0], self.library.finish(lent, self.out.clear(ROOM))[0]):
                    if later != 16:
                        raise Different("a call after refusal %d answers %d" % (got[0], later))
                return
        cut = lent.image()
        lent.put(loaded)
        whole = self.library.slice(lent, summed(cuts))
        if whole != (0, min(steps, summed(cuts))):
            raise Different("the uncut slice of %d answers %s" % (summed(cuts), whole))
        if lent.image() != cut:
            raise Different("cut and uncut differ: %s" % first_difference(cut, lent.image()))
        if result is not None and min(steps, summed(cuts)) == steps:
            self.finished(lent, result)

    def finished(self, lent, result):
        """15 one byte short, with the workspace as it was; then the result."""
        short = self.library.finish(lent, self.out.clear(len(result) - 1))
        full = self.library.finish(lent, self.out.clear(len(result)))
        self.out.clear(ROOM)
        if short != (15, 0) or full != (0, len(result)) or self.out.result != result:
            raise Different("finish answers %s, then %s, or another result" % (short, full))
        if self.library.finish(lent, self.out)[0] != 16:
            raise Different("finish after finish is not refused by 16")

    # -- arguments

    def arguments(self, data, pools, rng, case):
        """1, 4 and 16 by what is handed over."""
        lent = Lent(self.library, pools, len(data))
        used, out = lent.used, self.out.clear(ROOM)
        for k, (least, most) in enumerate(POOL_RANGES):
            for bad in {least - 1, most + 1, NONE} - {-1}:
                wrong = tuple(bad if i == k else p for i, p in enumerate(pools))
                self.expect(1, "pools %s" % (wrong,), *self.all_calls(lent, data, out, pools=wrong))
        self.expect(1, "a word short", *self.all_calls(lent, data, out, n_words=used - 1))
        if data:
            self.expect(1, "a byte short", self.library.begin(lent, data, n_bytes=len(data) - 1),
                        self.library.optimize(lent, data, out, n_bytes=len(data) - 1))
        self.expect(16, "no image", self.library.slice(lent, 1), self.library.finish(lent, out))
        number, _ = self.library.begin(lent, data, n_words=used, n_bytes=len(data))
        if number not in (model.verdict(data), 9, 10):
            raise Different("begin answers %d, the model %d" % (number, model.verdict(data)))
        if number:
            return
        for steps in (MOST_STEPS + 1, NONE - 1):
            self.expect(4, "slice of %d" % steps, self.library.slice(lent, steps))
        self.expect(16, "bytes too few for the held file", self.library.slice(lent, 1, n_bytes=len(data) - 1),
                    self.library.finish(lent, out, n_bytes=len(data) - 1))
        k = rng.randrange(3)
        other = tuple(max(least, p - 1) if i == k else p for i, (p, (least, _)) in enumerate(zip(pools, POOL_RANGES)))
        if other != pools:
            self.expect(16, "pools %s" % (other,), self.library.slice(lent, 1, pools=other), self.library.finish(lent, out, pools=other))
            self.expect(16, "other pools and a bad slice", self.library.slice(lent, NONE - 1, pools=other))
        self.expect(15, "no room", self.library.finish(lent, out.clear(0)))
        out.clear(ROOM)

    def all_calls(self, lent, data, out, **said):
        return [self.library.begin(lent, data, **said), self.library.slice(lent, 1, **said),
                self.library.slice(lent, NONE - 1, **said), self.library.finish(lent, out, **said),
                self.library.optimize(lent, data, out, **said)]

    def expect(self, number, what, *answers):
        for answer in answers:
            if answer[0] != number:
                raise Different("%s: refused by %d, expected %d" % (what, answer[0], number))
