"""8: a rule names path ivy:engine:free."""

from gen import FREE, NetSpec, Spec

from .collection import FLAT, TREE

LISTS = {2: 1, 3: 2, 4: 2, 5: 3}        # tag to number of lists


def spec_of(call, paths):
    spec = Spec(version=call)
    spec.paths = paths
    spec.names = [(0, 0, [])]
    spec.nets = [NetSpec(0, 1, 0)]
    return spec


def all_vectors(c):
    for call in (FLAT, TREE):
        for where, paths in (("first", [FREE, "a", "b"]), ("last", ["a", "b", FREE])):
            free, other, third = paths.index(FREE), paths.index("a"), paths.index("b")
            spec = spec_of(call, paths)
            for lazy in (0, 1):
                spec.rules = [(1, free, lazy)]
                c.add(call, "graft of the free path, %s, lazy %d" % (where, lazy), 8, spec.bytes())
            spec.rules = [(1, other, 0), (1, third, 0)]
            c.add(call, "graft of others, free %s" % where, 0, spec.bytes())
            for tag, lists in LISTS.items():
                for i in range(lists):
                    for place, named in (("alone", [free]), ("first", [free, other, third]), ("last", [other, third, free])):
                        rule = [[other] for _ in range(lists)]
                        rule[i] = named
                        spec.rules = [(tag,) + tuple(rule)]
                        c.add(call, "tag %d, list %d names free (%s of the paths) %s" % (tag, i, where, place), 8,
                              spec.bytes())
                spec.rules = [(tag,) + tuple([other, third] for _ in range(lists))]
                c.add(call, "tag %d names all but free, %s of the paths" % (tag, where), 0, spec.bytes())
        for tag, lists in LISTS.items():
            spec = spec_of(call, ["a", FREE])
            spec.rules = [(tag,) + tuple([] for _ in range(lists - 1)) + ([1],)]
            spec.nets = []
            c.add(call, "tag %d names free, no net at all" % tag, 8, spec.bytes())
        spec = spec_of(call, ["a", FREE])
        spec.rules = [(1, 0, 0)] * 63 + [(5, [], [], [0] * 254 + [1])]
        c.add(call, "the last path of the 64th rule is free", 8, spec.bytes())
        spec.rules = [(1, 1, 0)] + [(1, 0, 0)] * 63
        c.add(call, "the first of 64 rules names free", 8, spec.bytes())
        spec.rules = [(2, [1])]
        spec.nets[0].included = 0
        c.add(call, "a rule names free, no net included", 8, spec.bytes())
        near = [FREE[:-1], FREE + "e", FREE[:-1] + "E", "I" + FREE[1:], "x" + FREE[1:], "ivy.engine.free"]
        spec = spec_of(call, near)
        spec.rules = [(2, list(range(len(near))))] + [(1, i, 0) for i in range(len(near))]
        c.add(call, "rules name paths like the free one, which is absent", 0, spec.bytes())
        spec = spec_of(call, near + [FREE])
        spec.rules = [(2, list(range(len(near))))]
        c.add(call, "rules name paths like the free one, which is last", 0, spec.bytes())
        spec.rules = [(2, list(range(len(near) + 1)))]
        c.add(call, "a rule names paths like the free one, and then it", 8, spec.bytes())
        spec = spec_of(call, ["a", FREE])
        spec.names = [(1, 0, []), (1, 1, [0])]
        if call == FLAT:
            spec.nets[0].wires = 1
            spec.nets[0].nodes = [((1, 0, [1]), 0, [0])]
        else:
            spec.nets[0].free = [((1, 0, [1]), [])]
        c.add(call, "names and a node bear the free path", 0, spec.bytes())
