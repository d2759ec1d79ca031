"""7: some net not well wired."""

from gen import NetSpec, Spec

from .collection import FLAT, TREE

X = (0, 0, [])


def spec_of(call, nets):
    """Nets 0, 1, 2 ... of path x, every second one included."""
    spec = Spec(version=call)
    spec.paths, spec.names = ["x"], [(0, i, []) for i in range(max(2, len(nets)))]
    for i, fill in enumerate(nets):
        net = NetSpec(i, i % 2, 65536)
        fill(net)
        spec.nets.append(net)
    return spec


def flat_net(free=(), pairs=(), nodes=()):
    """nodes: lists of wires, the principal wire first."""
    def fill(net):
        net.free, net.pairs = list(free), list(pairs)
        net.nodes = [(X, wires[0], list(wires[1:])) for wires in nodes]
    return fill


def tree_net(free=(), links=()):
    def fill(net):
        net.free, net.links = list(free), list(links)
    return fill


FLAT_NETS = (
    # A wire in no pair occurs twice or never among free and node places.
    ("nothing", flat_net(), 0),
    ("a wire twice in free", flat_net([0, 0]), 0),
    ("a wire in free and principal", flat_net([0], nodes=[[0]]), 0),
    ("a wire in free and aux", flat_net([0, 1], nodes=[[1, 0]]), 0),
    ("a wire principal and aux of one node", flat_net(nodes=[[0, 0]]), 0),
    ("a wire twice in one node's aux", flat_net([0], nodes=[[0, 5, 5]]), 0),
    ("a wire principal of two nodes", flat_net(nodes=[[3], [3]]), 0),
    ("a wire aux of two nodes", flat_net(nodes=[[0, 7], [0, 7]]), 0),
    ("wire 65,535 twice", flat_net([65535], nodes=[[65535]]), 0),
    ("a wire once, free", flat_net([0]), 7),
    ("a wire once, free, the last of three", flat_net([0, 0, 1]), 7),
    ("a wire once, principal", flat_net(nodes=[[0]]), 7),
    ("a wire once, aux", flat_net([0], nodes=[[0, 1]]), 7),
    ("a wire once, the last aux of the last node", flat_net([0, 1], nodes=[[0], [1, 2, 2, 3]]), 7),
    ("wire 65,535 once", flat_net([65535]), 7),
    ("two wires once each", flat_net([0, 1]), 7),
    ("a wire three times, free", flat_net([0, 0, 0]), 7),
    ("a wire three times, mixed", flat_net([0], nodes=[[0, 0]]), 7),
    ("a wire three times, principal", flat_net(nodes=[[0], [0], [0]]), 7),
    ("a wire four times", flat_net([0, 0, 0, 0]), 7),
    ("a wire once and one three times", flat_net([0, 0, 0, 1]), 7),
    ("a wire 16 times in a node", flat_net(nodes=[[0] * 16]), 7),
    ("a wire 256 times", flat_net(nodes=[[0] * 16] * 16), 7),
    ("a wire 258 times", flat_net([0, 0], nodes=[[0] * 16] * 16), 7),
    # Of a pair, both wires occur once or neither occurs.
    ("a pair unused", flat_net(pairs=[(0, 1)]), 0),
    ("a pair used, free", flat_net([0, 1], [(0, 1)]), 0),
    ("a pair used, in the other order", flat_net([1, 0], [(0, 1)]), 0),
    ("a pair used, free and principal", flat_net([0], [(0, 1)], [[1]]), 0),
    ("a pair used, principal and aux", flat_net(pairs=[(0, 1)], nodes=[[0, 1]]), 0),
    ("a pair used, aux of two nodes", flat_net(pairs=[(0, 1)], nodes=[[2, 0], [2, 1]]), 0),
    ("a pair used and one unused", flat_net([0, 3], [(0, 3), (1, 2)]), 0),
    ("pairs crossed and used", flat_net([0, 1, 2, 3], [(0, 2), (1, 3)]), 0),
    ("pair 0 = 65,535 used", flat_net([0, 65535], [(0, 65535)]), 0),
    ("a pair, 1 and 0 times", flat_net([0], [(0, 1)]), 7),
    ("a pair, 0 and 1 times", flat_net([1], [(0, 1)]), 7),
    ("a pair, 2 and 0 times (D2)", flat_net([0, 0], [(0, 1)]), 7),
    ("a pair, 0 and 2 times", flat_net([1, 1], [(0, 1)]), 7),
    ("a pair, 2 and 1 times", flat_net([0, 0, 1], [(0, 1)]), 7),
    ("a pair, 1 and 2 times", flat_net([0, 1, 1], [(0, 1)]), 7),
    ("a pair, 2 and 2 times", flat_net([0, 0, 1, 1], [(0, 1)]), 7),
    ("a pair, 3 and 1 times", flat_net([0, 0, 0, 1], [(0, 1)]), 7),
    ("a pair, 1 and 3 times", flat_net([0, 1, 1, 1], [(0, 1)]), 7),
    ("a pair, 257 and 1 times", flat_net([0, 1], [(0, 1)], [[0] * 16] * 16), 7),
    ("a pair, 2 and 0 times, principal ports", flat_net(pairs=[(0, 1)], nodes=[[0], [0]]), 7),
    ("a pair, 0 and 2 times, aux", flat_net(pairs=[(0, 1)], nodes=[[2, 1], [2, 1]]), 7),
    ("two pairs, each half used", flat_net([0, 1], [(0, 2), (1, 3)]), 7),
    ("the last of three pairs half used", flat_net([0, 1, 4], [(0, 1), (2, 3), (4, 5)]), 7),
    ("the first of three pairs half used", flat_net([0, 4, 5], [(0, 1), (2, 3), (4, 5)]), 7),
    ("a pair used, a wire besides once", flat_net([0, 1, 2], [(0, 1)]), 7),
)


def deep(k, end):
    for _ in range(k):
        end = (X, [end])
    return end


TREE_NETS = (
    # Each wire occurs twice or never over free and links.
    ("nothing", tree_net(), 0),
    ("a wire twice in free", tree_net([0, 0]), 0),
    ("a wire in free and a link's left", tree_net([0], [(0, (X, []))]), 0),
    ("a wire in free and a link's right", tree_net([0], [((X, []), 0)]), 0),
    ("a wire linked to itself", tree_net([], [(0, 0)]), 0),
    ("a wire twice in one node", tree_net([(X, [0, 0])]), 0),
    ("a wire on both sides of a link, inside", tree_net([], [((X, [0, 1]), (X, [1, 0]))]), 0),
    ("a wire 64 deep and in free", tree_net([deep(64, 0), 0]), 0),
    ("a wire 64 deep and in the last link", tree_net([deep(64, 0)], [((X, []), (X, [])), ((X, []), (X, [(X, [0])]))]), 0),
    ("wire 65,535 twice", tree_net([65535], [((X, []), 65535)]), 0),
    ("nodes without a wire", tree_net([(X, []), (X, [(X, []), (X, [])])], [((X, []), (X, []))]), 0),
    ("a wire once, free", tree_net([0]), 7),
    ("a wire once, in a free tree", tree_net([(X, [0])]), 7),
    ("a wire once, a link's left", tree_net([], [(0, (X, []))]), 7),
    ("a wire once, a link's right", tree_net([], [((X, []), 0)]), 7),
    ("a wire once, 64 deep", tree_net([deep(64, 0)]), 7),
    ("a wire once, the last of the last link", tree_net([0, 0], [(1, 2), ((X, [1]), (X, [(X, []), (X, [2, 3])]))]), 7),
    ("wire 65,535 once", tree_net([65535]), 7),
    ("two wires once each", tree_net([], [(0, 1)]), 7),
    ("a wire three times, free", tree_net([0, 0, 0]), 7),
    ("a wire three times, mixed", tree_net([0], [(0, (X, [0]))]), 7),
    ("a wire three times, one node", tree_net([(X, [0, 0, 0])]), 7),
    ("a wire four times", tree_net([], [(0, 0), (0, 0)]), 7),
    ("a wire once and one three times", tree_net([0, 0], [(0, 1)]), 7),
    ("a wire 256 times", tree_net([], [(0, 0)] * 128), 7),
    ("a wire 258 times", tree_net([], [(0, 0)] * 129), 7),
)


def all_vectors(c):
    for call, nets, well in ((FLAT, FLAT_NETS, flat_net([0, 0])), (TREE, TREE_NETS, tree_net([0, 0]))):
        for label, fill, expected in nets:
            c.add(call, "wiring: " + label, expected, spec_of(call, [fill]).bytes())
            if expected:
                c.add(call, "wiring, second of three nets: " + label, 7, spec_of(call, [well, fill, well]).bytes())
        c.add(call, "wiring: the same wire well met in three nets", 0, spec_of(call, [well] * 3).bytes())
    once = flat_net([3])
    c.flat("wiring: a wire once in each of two nets", 7, spec_of(FLAT, [once, once]).bytes())
    c.flat("wiring: a pair of net 0 is none of net 1", 7,
           spec_of(FLAT, [flat_net([0, 1], [(0, 1)]), flat_net([0, 1])]).bytes())
    c.flat("wiring: a pair of net 1 is none of net 0", 7,
           spec_of(FLAT, [flat_net([0, 1]), flat_net([0, 1], [(0, 1)])]).bytes())
    once = tree_net([3])
    c.tree("wiring: a wire once in each of two nets", 7, spec_of(TREE, [once, once]).bytes())
