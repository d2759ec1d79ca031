"""Valid files: the result in one call and in slices is the Rust original's, byte for byte.

Where the original has no answer (it panics at 12 and 13, and knows no pools) the model gives the number."""

import gen
import model
from comparing.library import NONE, Different, Lent, Output
from comparing.original import Original
from comparing.watched import Part

USUAL = (128, 512, 64)
GREATEST = (4096, 16384, 4096)
CAP = 3000              # steps of the original where a file has limit none or a greater one


def tree_as_flat(seed):
    """A tree file's nets as flat ones: nets with many pairs."""
    return model.to_flat(gen.valid_tree(seed).bytes())


def fixed():
    """The files that are not from a seed."""
    cases = gen.examples() + gen.sharp() + gen.netlist_refusals()
    files = [(c.label, c.data) for c in cases] + [(label, spec.bytes()) for label, spec in gen.exhaustive()]
    return [f for f in files if model.verdict(f[1]) == 0]


SEEDED = [("valid", lambda s: gen.valid(s).bytes()), ("dense", lambda s: gen.dense(s).bytes()),
          ("waits", lambda s: gen.waits(s).bytes()), ("churn", lambda s: gen.churn(s).bytes()),
          ("tree", tree_as_flat), ("mutated", gen.mutated)]


def with_limit(data, limit):
    return data[:5] + limit.to_bytes(4, "big") + data[9:]


def uncut(data, pools):
    """The model's (steps, refusal, result) of the one-call form."""
    engine = None
    try:
        engine = model.Engine.begin(data, pools)
        engine.slice(NONE)
        steps = engine.steps
        return steps, 0, engine.finish()
    except model.Refusal as refusal:
        return (engine.steps if engine else 0), refusal.number, None


class Valid(Part):
    name = "valid"

    def __init__(self, library, program, seed):
        self.library, self.program, self.seed = library, program, seed
        self.fixed = fixed()

    def start(self):
        self.original = Original(self.program)
        self.out = Output()

    def stop(self):
        self.original.close()

    def file(self, index):
        """Label and bytes of an item: first the fixed ones, then from seeds."""
        if index < len(self.fixed):
            return self.fixed[index]
        seed, kind = divmod(index - len(self.fixed), len(SEEDED))
        label, make = SEEDED[kind]
        seed = "%s %d" % (self.seed, seed) if self.seed else seed
        try:
            data = make(seed)
        except model.Refusal:                           # a conversion that has no flat file
            data = b""
        if label in ("mutated", "tree") and model.verdict(data):
            label, data = "valid", gen.valid("instead of %s %s" % (label, seed)).bytes()
        return "%s %s" % (label, seed), data

    def expected(self, data, rng, case, counts):
        """The file, with a limit if it never ends, and the original's result; None where it panics."""
        endless = with_limit(data, NONE) if int.from_bytes(data[5:9], "big") > CAP else data
        result = self.original.ask("optimize cap %d" % CAP, endless)
        if result != b"capped\n" and endless != data:
            result = self.original.ask("optimize", data)
        if result == b"capped\n":
            data = with_limit(data, rng.randint(0, 200))
            case["file"] = data
            counts["given a limit, since they do not end"] += 1
            result = self.original.ask("optimize", data)
        return data, None if result == b"panic\n" else result

    def one(self, index, rng, case, counts):
        case["label"], data = self.file(index)
        case["file"] = data
        data, result = self.expected(data, rng, case, counts)
        room = len(result or b"") + rng.choice([0, 0, 1, 500])
        for pools in (USUAL, GREATEST):
            case["pools"] = pools
            lent = Lent(self.library, pools, len(data), rng.choice([0, 0xA5, 0xFF]))
            refusal, value = self.library.optimize(lent, data, self.out.clear(room))
            if refusal not in (9, 10, 11):
                break
        number = refusal
        if result is None or refusal:
            number = uncut(data, pools)[1]
            counts["refused by %d in the model" % number] += 1
        if refusal != number:
            raise Different("optimize answers %d, the model %d" % (refusal, number))
        if refusal == 0 and self.out.result != result:
            case["expected"], case["got"] = result, self.out.result
            raise Different("the result is not the original's")
        counts["results equal to the original's"] += refusal == 0
        self.in_slices(lent, data, refusal, result, room, rng, case, counts)

    def in_slices(self, lent, data, refusal, result, room, rng, case, counts):
        number, _ = self.library.begin(lent, data)
        cuts = []
        sizes = rng.choice([[1], [3], [1, 2, 5], [0, 1, 30], [NONE]])
        while number == 0:
            n = NONE if len(cuts) >= 40 else rng.choice(sizes)
            case["slices"] = cuts + [n]
            number, steps = self.library.slice(lent, n)
            cuts.append((n, number or steps))
            if number == 0 and steps < n:
                break
        counts["slices"] += len(cuts)
        if number == 0:
            number, _ = self.library.finish(lent, self.out.clear(room))
        if number != refusal:
            raise Different("in slices %d, in one call %d" % (number, refusal))
        if number == 0 and self.out.result != result:
            case["expected"], case["got"] = result, self.out.result
            raise Different("the result in slices is not the original's")
