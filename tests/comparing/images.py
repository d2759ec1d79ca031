"""Damaged images: begin, some slices, then words or bytes of the workspace changed at random. Each later call is refused by
16 or gives an answer, ends, and keeps to what it was lent.

The layout is not known here. But an image that is still accepted holds nets that are well wired, so its result must be a
file that the model accepts; a slice of 0 must leave it as it is; and slice and finish must agree on what is an image."""

import struct

import gen
import model
from comparing.library import Different, Lent, Output
from comparing.watched import Part

ROOM = (4096, 16384, 4096)
NONE = 0xFFFFFFFF


def some_pools(data, rng):
    """Pools that suffice, without much room over: then most words of the workspace are in use."""
    try:
        engine = model.Engine.begin(data, ROOM, 60)
    except model.Refusal:
        return None
    try:
        engine.slice(NONE)
    except model.Refusal:
        pass
    peak = engine.peak
    return tuple(min(p + rng.choice([0, 1, 3, 10]), most)
                 for p, most in zip((peak["nodes"], peak["entries"], peak["waits"]), ROOM))


def other_word(word, words, pools, rng):
    """Another value, near the old one, or that of another word, or a bound, or any."""
    near = [(word + 1) % 2 ** 32, (word - 1) % 2 ** 32, word ^ 1 << rng.randrange(32), word ^ 1 << rng.randrange(8)]
    return rng.choice(near + [0, 1, 2, NONE, rng.choice(words), rng.choice(words), rng.randrange(2 ** 32),
                              rng.randrange(4 * pools[0] + 5), rng.randrange(16 * pools[0] + 17), rng.randrange(300)])


class Images(Part):
    name = "images"

    def __init__(self, library, seed):
        self.library, self.seed = library, seed

    def start(self):
        self.out = Output()

    def one(self, index, rng, case, counts):
        make = rng.choice([gen.valid, gen.dense, gen.waits, gen.churn])
        data = make("%s %d" % (self.seed, index // 8)).bytes()     # eight items to a file
        pools = some_pools(data, rng)
        case["file"], case["pools"] = data, pools
        if pools is None:
            return
        lent = Lent(self.library, pools, len(data))
        steps = [rng.choice([0, 1, 1, 2, 3, 5, 20]) for _ in range(rng.randrange(4))]
        case["slices"] = steps
        number = self.library.begin(lent, data)[0]
        for n in steps:
            number = number or self.library.slice(lent, n)[0]
        if number:
            counts["refused before any damage"] += 1
            return
        if not self.damage(lent, rng, case):
            counts["not changed after all"] += 1
            return
        self.later(lent, rng, case, counts)

    def damage(self, lent, rng, case):
        """Changes the used part; False if it came out the same."""
        before = lent.image()
        for _ in range(rng.choice([1, 1, 1, 1, 2, 5])):
            if rng.random() < 0.85:
                words = list(struct.unpack("%dI" % lent.used, before[0]))
                at = rng.randrange(lent.used)
                if rng.random() < 0.75:
                    at = rng.choice([i for i, w in enumerate(words) if w])
                if rng.random() < 0.15:
                    to = rng.randrange(lent.used)
                    lent.words[at], lent.words[to] = lent.words[to], lent.words[at]
                else:
                    lent.words[at] = other_word(words[at], words, lent.pools, rng)
            else:
                at = rng.randrange(lent.file_length)
                lent.bytes[at] = rng.choice([0, 1, 255, (lent.bytes[at] + 1) % 256, rng.randrange(256)])
        after = lent.image()
        case["changed words"] = [(i // 4, before[0][i:i + 4].hex(), after[0][i:i + 4].hex())
                                 for i in range(0, len(after[0]), 4) if before[0][i:i + 4] != after[0][i:i + 4]]
        case["changed bytes"] = [(i, x, y) for i, (x, y) in enumerate(zip(before[1], after[1])) if x != y]
        return before != after

    def later(self, lent, rng, case, counts):
        damaged = lent.seen()
        case["calls"] = "slice of 0"
        first = self.library.slice(lent, 0)
        if first[0] == 0 and (first[1] or lent.seen() != damaged):
            raise Different("a slice of 0 deducts %d or changes the workspace" % first[1])
        if first[0] not in (0, 16):
            raise Different("a slice of 0 is refused by %d" % first[0])
        case["calls"] = "finish"
        number, _ = self.library.finish(lent, self.out.clear(1 << 17))
        if (number == 16) != (first[0] == 16):
            raise Different("slice answers %d, finish %d" % (first[0], number))
        self.accepted(number)
        counts["16" if number == 16 else "still an image"] += 1
        lent.put(damaged)
        calls = [rng.choice([1, 1, 2, 7, 1000]) for _ in range(rng.randint(1, 4))]
        for k, n in enumerate(calls):
            case["calls"] = "slices of %s" % calls[:k + 1]
            number, _ = self.library.slice(lent, n)
            if (number == 16) != (first[0] == 16):
                raise Different("slice of 0 answers %d, slice of %d answers %d" % (first[0], n, number))
            if number:
                if number != 16:
                    counts["still an image, then refused by %d" % number] += 1
                return
        case["calls"] += ", then finish"
        self.accepted(self.library.finish(lent, self.out.clear(1 << 17))[0])

    def accepted(self, number):
        if number == 0 and model.verdict(self.out.result):
            raise Different("the result is a file that is refused by %d" % model.verdict(self.out.result))
