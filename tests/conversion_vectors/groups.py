"""The vectors, group by group. Small files are preferred: the list is read in every test run."""

import random

import gen
import model
from gen import tree_file

FLAT_CALLS = ("to-tree", "resolve-flat")
TREE_CALLS = ("to-flat", "resolve-tree")
SMALL = 600             # bytes of a file from a seed
X = lambda *children: ((0, 0, []), list(children))
Y = lambda *children: ((1, 0, []), list(children))


def chain(k, end):
    """k nodes one below the other over `end`, or over nothing where it is None."""
    tree = end
    for _ in range(k):
        tree = X() if tree is None else X(tree)
    return tree


def worked(c):
    """Worked readings of the rules."""
    for call, label, data, expected in gen.conversions():
        c.add("%s: %s" % (call, label), call, data, expected)


def depths(c):
    """Trees at 63, 64 and 65: as they stand, in each place, and as they come to hang on each other."""
    for k in (1, 2, 63, 64, 65):
        places = {
            "free": tree_file(1, [chain(k, 0), 0], []),
            "left": tree_file(1, [0], [(chain(k, 0), Y())]),
            "right": tree_file(1, [0], [(0, chain(k, None))]),
            "both": tree_file(0, [], [(chain(k, None), chain(k, None))]),
        }
        for place, spec in places.items():
            for call in TREE_CALLS:
                c.add("%s: %d deep, %s" % (call, k, place), call, spec.bytes(), 5 if k > 64 else None)
    for a, b in ((31, 32), (32, 32), (33, 32), (1, 63), (63, 1), (1, 64), (64, 1), (62, 2), (60, 5)):
        hung = tree_file(2, [chain(a, 0)], [(0, chain(b, 1)), (1, Y())])
        linked = tree_file(2, [], [(chain(a, 0), Y()), (0, chain(b, 1)), (1, X())])
        for name, spec in (("free", hung), ("linked", linked)):
            for call in TREE_CALLS:
                c.add("%s: %d over %d, %s" % (call, a, b, name), call, spec.bytes())


def circles(c):
    """Links of wires and of trees that come back to where they began."""
    for k in range(1, 7):
        ring = [(i, (i + 1) % k) for i in range(k)]
        trees = [(i, X((i + 1) % k)) for i in range(k)]
        turned = [(X((i + 1) % k), i) for i in reversed(range(k))]
        mixed = [(i, (i + 1) % k) if i % 2 else (i, Y((i + 1) % k)) for i in range(k)]
        for name, links in (("wires", ring), ("trees", trees), ("turned", turned), ("mixed", mixed)):
            for call in TREE_CALLS:
                c.add("%s: circle of %d, %s" % (call, k, name), call, tree_file(k, [], links).bytes())


def edges(c):
    """Wires at 65,535 and counters at 65,536."""
    for wires in (65534, 65535, 65536):
        last = wires - 1
        specs = {
            "a node": tree_file(wires, [X()], []),
            "two nodes": tree_file(wires, [X(), Y()], []),
            "the last wire": tree_file(wires, [last, last], []),
            "the last wire linked": tree_file(wires, [last], [(last, X())]),
            "the last wires": tree_file(wires, [0, last], [(0, last)]),
            "a child": tree_file(wires, [last], [(last, X(Y()))]),
        }
        for name, spec in specs.items():
            for call in TREE_CALLS:
                c.add("%s: counter %d, %s" % (call, wires, name), call, spec.bytes())


def hangings(c):
    """Small nets in many wirings: which tree hangs where, what is renamed, what is left."""
    rng = random.Random("hangings")
    shapes = [lambda w: (w(), w()), lambda w: (w(), X(w())), lambda w: (X(w()), w()), lambda w: (X(w()), Y(w(), w())), lambda w: (w(), Y())]
    for i in range(60):
        places = []

        def place():
            places.append(None)
            return len(places) - 1

        free = [place() for _ in range(rng.choice([0, 1, 2]))]
        links = [rng.choice(shapes)(place) for _ in range(rng.choice([1, 2, 3, 4]))]
        if len(places) % 2:
            links.append((place(), Y()))
        order = list(range(len(places)))
        rng.shuffle(order)
        number = {p: i // 2 for i, p in enumerate(order)}
        turn = lambda t: number[t] if isinstance(t, int) else (t[0], [turn(u) for u in t[1]])
        spec = tree_file(len(places) // 2, [turn(t) for t in free], [(turn(a), turn(b)) for a, b in links])
        for call in TREE_CALLS:
            c.add("%s: hanging %d" % (call, i), call, spec.bytes())


def small(make, start, count):
    """So many files from a generator that are not long."""
    seed = start
    while count:
        data = make(seed).bytes()
        if len(data) <= SMALL:
            yield seed, data
            count -= 1
        seed += 1


def seeded(c):
    """From the generators, with an output that just suffices and one that is a byte short."""
    for seed, data in small(gen.valid_tree, 0, 60):
        for call in TREE_CALLS:
            c.both_rooms("%s: tree %d" % (call, seed), call, data)
    for name, make in (("valid", gen.valid), ("dense", gen.dense)):
        for seed, data in small(make, 0, 25):
            for call in FLAT_CALLS:
                c.both_rooms("%s: %s %d" % (call, name, seed), call, data)


def entries(c):
    """Pruning: no entries, one, several, one twice, one that is no name."""
    for name, make in (("valid", gen.valid), ("waits", gen.waits)):
        for seed, data in small(make, 100, 25):
            rng = random.Random("entries %s %d" % (name, seed))
            names = len(model.parse(data, 1).names)
            lists = [(), (names,), (0, names + 1)]
            if names:
                lists += [(0,), (names - 1,), (names - 1, 0, names - 1), tuple(rng.randrange(names) for _ in range(2))]
            for i, some in enumerate(lists):
                c.both_rooms("prune: %s %d, %d" % (name, seed, i), "prune", data, some)


def refused(c):
    """2 to 8, by damaged files and by files of the other version."""
    for i, case in enumerate(gen.damaged(7)):
        calls = ("prune", "to-tree", "resolve-flat") if case.version == 1 else TREE_CALLS
        if len(case.data) <= SMALL:
            c.add("damaged %d" % i, calls[i % len(calls)], case.data)
    flat, tree = gen.valid(3).bytes(), gen.valid_tree(3).bytes()
    for call in FLAT_CALLS + ("prune",):
        c.add("%s: a tree file" % call, call, tree, 3)
    for call in TREE_CALLS:
        c.add("%s: a flat file" % call, call, flat, 3)
    # 5 of an entry comes after 8 of the file and before 15
    c.add("prune: an entry and no room", "prune", flat, 5, (1024,), 0)


GROUPS = [worked, depths, circles, edges, hangings, seeded, entries, refused]
