"""6: a repeated path or name, nets or pairs out of order, a wire in two pairs."""

from gen import FREE, NetSpec, Spec

from .collection import FLAT, TREE
from .draft import flat_base, tables, tree_base

BASES = ((FLAT, flat_base), (TREE, tree_base))


def paths(c):
    long = "z" * 63
    for call, base in BASES:
        for label, new, expected in (
                ("first again at the end", ["x"], 6), ("last again", ["z~!"], 6), ("second again", ["yy"], 6),
                ("free one again", [FREE], 6), ("new one twice", ["q", "q"], 6), ("new one thrice", ["q", "w", "q", "q"], 6),
                ("two of 64 bytes alike", [long + "a", long + "a"], 6),
                ("two of 64 bytes, last byte differs", [long + "a", long + "b"], 0),
                ("two of 64 bytes, first byte differs", ["a" + long, "b" + long], 0),
                ("one the start of another", ["q", "qq", "qqq"], 0), ("one the end of another", ["ab", "b"], 0),
                ("the same letters in another order", ["ab", "ba"], 0), ("case differs", ["X", "YY"], 0)):
            spec = base()
            spec.paths += new
            c.add(call, "paths: %s" % label, expected, spec.bytes())
        spec = base()
        spec.paths.insert(0, "z~!")
        spec.paths.pop(1)
        c.add(call, "paths: first and last alike", 6, spec.bytes())


def names(c):
    """Names differ in path, payload or the child list in order; a node may bear a table's name."""
    for call, base in BASES:
        for label, new, expected in (
                ("first again at the end", [(0, 0, [])], 6), ("last again", [(1, 7, [0, 1])], 6),
                ("middle again", [(1, 7, [0])], 6), ("new one twice", [(3, 3, []), (3, 3, [])], 6),
                ("path alone differs", [(3, 0, [])], 0),
                ("payload differs in its lowest byte", [(0, 1, [])], 0),
                ("payload differs in its highest byte", [(0, 2 ** 56, [])], 0),
                ("payload differs in its middle", [(0, 2 ** 32, [])], 0),
                ("children differ in the last", [(1, 7, [0, 0])], 0),
                ("children differ in the first", [(1, 7, [1, 1])], 0),
                ("children in another order", [(1, 7, [1, 0])], 0),
                ("one child more", [(1, 7, [0, 1, 0])], 0), ("no children", [(1, 7, [])], 0),
                ("eight children alike", [(3, 1, [0] * 8), (3, 1, [0] * 8)], 6),
                ("eight children, the last differs", [(3, 1, [0] * 8), (3, 1, [0] * 7 + [1])], 0),
                ("three alike", [(3, 1, [2]), (3, 1, [2]), (3, 1, [2])], 6)):
            spec = base()
            spec.names += new
            c.add(call, "names: %s" % label, expected, spec.bytes())
    spec = flat_base()
    spec.nets[0].nodes += [(spec.names[0], 7, [7]), (spec.names[2], 7, [7])]
    spec.nets[0].nodes[-1] = (spec.names[2], 3, [3])
    spec.nets[0].nodes[2] = ((2, 0, []), 5, [5])
    c.flat("nodes that bear names of the table", 0, spec.bytes())


def nets(c):
    """Nets ascend strictly by name number."""
    for call in (FLAT, TREE):
        for label, numbers, expected in (
                ("0 1 2", [0, 1, 2], 0), ("0 2 3", [0, 2, 3], 0), ("3", [3], 0), ("none", [], 0),
                ("1 0", [1, 0], 6), ("1 1", [1, 1], 6), ("0 1 1", [0, 1, 1], 6), ("0 2 1", [0, 2, 1], 6),
                ("0 0 1", [0, 0, 1], 6), ("2 0 3", [2, 0, 3], 6), ("0 1 2 0", [0, 1, 2, 0], 6), ("3 2 1 0", [3, 2, 1, 0], 6)):
            spec = tables(call)
            spec.names.append((3, 3, []))
            spec.nets = [NetSpec(n, i % 2, 0) for i, n in enumerate(numbers)]
            c.add(call, "nets %s" % label, expected, spec.bytes())
        spec = tables(call)
        spec.names = [(0, i, []) for i in range(300)]
        spec.nets = [NetSpec(n, 1, 0) for n in (255, 256)]
        c.add(call, "nets 255 256", 0, spec.bytes())
        spec.nets.reverse()
        c.add(call, "nets 256 255", 6, spec.bytes())


def pairs(c):
    """A pair has its smaller wire first, pairs ascend by it, no wire is in two."""
    for label, pairs_, expected in (
            ("smaller first", [(0, 1)], 0), ("larger first", [(1, 0)], 6), ("one wire", [(1, 1)], 6),
            ("wire 0 with itself", [(0, 0)], 6), ("ascending", [(0, 1), (2, 3)], 0), ("crossed", [(0, 2), (1, 3)], 0),
            ("nested", [(0, 5), (1, 4), (2, 3)], 0), ("the second wires falling", [(0, 9), (1, 8), (3, 7)], 0),
            ("descending", [(2, 3), (0, 1)], 6), ("last two descending", [(0, 1), (4, 5), (2, 3)], 6),
            ("the same twice", [(0, 1), (0, 1)], 6), ("first in two, side by side", [(0, 1), (0, 2)], 6),
            ("first in two, the second falling", [(0, 2), (0, 1)], 6),
            ("first in two, apart", [(0, 1), (2, 3), (0, 4)], 6),
            ("second in two, side by side", [(0, 2), (1, 2)], 6),
            ("second in two, apart", [(0, 9), (1, 2), (3, 4), (5, 9)], 6),
            ("second and then first", [(0, 1), (1, 2)], 6), ("second and then first, apart", [(0, 5), (1, 2), (5, 6)], 6),
            ("larger first, last of three", [(0, 1), (2, 3), (5, 4)], 6),
            ("one wire, last of three", [(0, 1), (2, 3), (4, 4)], 6),
            ("wires on both sides of 256", [(255, 256), (257, 511)], 0),
            ("larger first, by the high byte", [(256, 255)], 6),
            ("descending, by the high byte", [(256, 257), (1, 255)], 6),
            ("wires 65,534 and 65,535", [(65534, 65535)], 0), ("wires 65,535 and 65,534", [(65535, 65534)], 6),
            ("wire 65,535 in two", [(65533, 65535), (65534, 65535)], 6)):
        for net in (0, 1):
            spec = flat_base()
            spec.nets[net] = NetSpec(2 * net, 1 - net, 65536)
            spec.nets[net].pairs = pairs_
            c.flat("pairs of net %d: %s" % (net, label), expected, spec.bytes())
    spec = Spec()
    spec.paths, spec.names = ["x"], [(0, 0, []), (0, 1, [])]
    spec.nets = [NetSpec(0, 1, 4), NetSpec(1, 1, 4)]
    for net in spec.nets:
        net.pairs = [(0, 3), (1, 2)]
    c.flat("the same pairs in two nets", 0, spec.bytes())
    spec.nets[0].pairs, spec.nets[1].pairs = [(2, 3)], [(0, 1)]
    c.flat("a later net's pairs lower", 0, spec.bytes())


def all_vectors(c):
    paths(c)
    names(c)
    nets(c)
    pairs(c)
