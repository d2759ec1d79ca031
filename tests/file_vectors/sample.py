"""A seeded sample of the generators: well-formed files, damaged ones, and files hit at random."""

import random

import gen
import model

LARGEST = 6000          # bytes of a sampled file; the limits have their own group
SEED = "file vectors"


def valid_flat(c):
    """60: fifteen of each kind of flat file."""
    for maker in (gen.valid, gen.dense, gen.waits, gen.churn):
        seed, taken = 0, 0
        while taken < 15:
            data = maker(seed).bytes()
            if len(data) <= LARGEST:
                c.flat("random %s %d" % (maker.__name__, seed), 0, data)
                taken += 1
            seed += 1


def valid_trees(c):
    """40 tree files."""
    for seed in range(40):
        c.tree("random tree %d" % seed, 0, gen.valid_tree(seed).bytes())


def damaged(c):
    """60 of the damaged files, each with the number that its maker gives."""
    rng = random.Random(SEED)
    cases = [(seed, i, case) for seed in range(8) for i, case in enumerate(gen.damaged(seed))
             if len(case.data) <= LARGEST and case.expect]
    for seed, i, case in rng.sample(cases, 60):
        c.add(case.version, "damaged %d, %d: %s" % (seed, i, case.label), case.expect, case.data)


def mutated(c):
    """60 valid files hit at random: no author knows the number, so the model gives it."""
    taken, seed = 0, 0
    while taken < 60:
        data = gen.mutated(seed)
        if len(data) <= LARGEST:
            c.flat("mutated %d" % seed, model.verdict(data, 1), data)
            taken += 1
        seed += 1


def all_vectors(c):
    valid_flat(c)
    valid_trees(c)
    damaged(c)
    mutated(c)
