"""The vectors, group by group. Small files are preferred: the list is read in every test run."""

import random

import gen
import model
from net_vectors.collection import NONE, with_limit
from net_vectors.told_apart import told_apart

AMPLE = (256, 1024, 64)
SMALL = 520             # bytes of a file from a seed
SEED = "net vectors"
GREATEST = (4096, 16384, 4096)


def examples(c):
    """P1 to P8, and the 14 of P8 once."""
    for case in gen.examples():
        if case.expect == 14:
            c.add(case.label, case.data, (8, 16, 0), endless=True)
        else:
            c.add(case.label, case.data, case.pools, case.expect)
            if case.expect == 0:
                c.add(case.label + ", ample pools", case.data, AMPLE, 0)


def sharp(c):
    """Files that each show one plausible error, and those at the edge of the pools of netlist."""
    for case in gen.sharp() + gen.netlist_refusals():
        c.add(case.label, case.data, AMPLE, case.expect)


def edges_of_pools(c):
    """9 to 13: each pool just enough, and one short, in every rule."""
    for seed in range(5):
        for i, case in enumerate(gen.refusals(seed)):
            if case.step_bound is None and len(case.data) <= 2 * SMALL:
                c.add("pools %d, %d: %s" % (seed, i, case.label), case.data, case.pools, case.expect)


def wirings(c):
    """Every 11th wiring of the small sets of nodes: circles, loops on one node, crossed wires."""
    for i, (label, spec) in enumerate(gen.exhaustive()):
        if i % 11 == 0:
            c.add(label, spec.bytes(), (16, 64, 4), None)


def settled(data):
    """The engine after its run in ample pools; None if that does not end soon."""
    try:
        engine = model.Engine.begin(data, GREATEST, 80)
        engine.slice(NONE)
        return engine
    except model.Refusal as refusal:
        return None if refusal.number == 14 else refusal.number


def seeded(c):
    """From the generators, in pools that suffice just so."""
    for make in (gen.valid, gen.dense, gen.waits, gen.churn):
        taken, seed = 0, 0
        while taken < 70:
            seed += 1
            data = make("%s %d" % (SEED, seed)).bytes()
            engine = settled(data) if len(data) <= SMALL else None
            if engine is None:
                continue
            taken += 1
            name = "%s %d" % (make.__name__, seed)
            if isinstance(engine, int):
                c.add(name, data, AMPLE)
                continue
            peak = engine.peak
            c.add(name, data, (max(1, peak["nodes"]), max(1, peak["entries"]), peak["waits"]), 0)
            if engine.steps:
                one_short(c, name, data, peak, taken)
                between(c, name, data, engine.steps, taken)


def one_short(c, name, data, peak, k):
    """One of the pools one less than the run needs."""
    pools = [peak["nodes"], peak["entries"], peak["waits"]]
    which = k % 4
    if which < 3 and pools[which] > (which != 2):
        pools[which] -= 1
        c.add("%s, %s one short" % (name, "NEW"[which]), data, tuple(pools), 9 + which)


def between(c, name, data, steps, k):
    """A limit somewhere on the way."""
    if k % 3 == 0:
        limit = random.Random("%s %s" % (SEED, name)).randint(0, steps)
        c.add("%s, limit %d of %d" % (name, limit, steps), with_limit(data, limit), AMPLE)


def trees_as_flat(c):
    """Flat files made of tree files: nets with many pairs, of which some occur nowhere."""
    taken, seed = 0, 0
    while taken < 40:
        seed += 1
        try:
            data = model.to_flat(gen.valid_tree("%s %d" % (SEED, seed)).bytes())
        except model.Refusal:
            continue
        if len(data) <= SMALL and not isinstance(settled(data), (int, type(None))):
            c.add("tree %d as flat" % seed, data, AMPLE, 0)
            taken += 1


def damaged(c):
    """2 to 8 through begin: the damages of one seed."""
    for i, case in enumerate(gen.damaged(1)):
        if len(case.data) <= 2 * SMALL and case.version == 1:
            c.add("damaged %d: %s" % (i, case.label), case.data, AMPLE, case.expect or None)
    for seed in range(60):
        data = gen.mutated("%s %d" % (SEED, seed))
        if len(data) <= SMALL and model.verdict(data):
            c.add("mutated %d" % seed, data, AMPLE)


def arguments(c):
    """1: each pool below and above its range, before anything that is wrong with the file."""
    good = gen.examples()[0].data
    for name, data in (("P1", good), ("P1 of another version", good[:4] + b"\x02" + good[5:]), ("no file", b"")):
        for pools in ((0, 16, 4), (4097, 16, 4), (16, 0, 4), (16, 16385, 4), (16, 16, 4097), (65535, 65535, 65535)):
            c.add("%s, pools %s" % (name, pools), data, pools, 1)
    for pools in ((4096, 16384, 4096), (4096, 1, 0), (4, 4, 0)):
        c.add("P1, pools %s" % (pools,), good, pools, 10 if pools[1] == 1 else 0)


def rooms(c):
    """15: no room, a byte short, and more than 4,096 nodes; engine refusals come before it."""
    for case in gen.examples() + gen.sharp():
        if case.expect == 0 and len(case.data) <= SMALL:
            result = model.optimize(case.data, AMPLE)
            c.add(case.label + ", a byte short", case.data, AMPLE, 15, len(result) - 1)
            c.add(case.label + ", no room", case.data, AMPLE, 15, 0)
        elif case.expect and case.expect != 14:
            c.add(case.label + ", no room either", case.data, case.pools, case.expect, 0)
    spec = gen.Spec(limit=5)
    spec.path("x")
    spec.path("e")
    spec.add_name("x")
    spec.add_name("x", 1)
    spec.rules = [(3, [1], [0])]
    other = gen.NetSpec(0, 0, 2047)
    other.nodes = [(spec.name("x"), i // 2, []) for i in range(4094)]
    spec.nets.append(other)
    grows = gen.NetSpec(1, 1, 4)
    grows.free = [1, 2, 3]
    grows.nodes = [(spec.name("e"), 0, []), (spec.name("x"), 0, [1, 2, 3])]
    spec.nets.append(grows)
    c.add("4,097 nodes in the result", spec.bytes(), AMPLE, 15, 100000)


GROUPS = (examples, sharp, told_apart, edges_of_pools, wirings, seeded, trees_as_flat, damaged, arguments, rooms)
