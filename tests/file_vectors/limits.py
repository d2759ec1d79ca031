"""The largest that is accepted of everything document 01 bounds, and one more."""

from gen import FREE, NetSpec, Spec

from .collection import FLAT, TREE
from .trees import chain

CALLS = (FLAT, TREE)
X = (0, 0, [])


def spec_of(call, names=1):
    spec = Spec(version=call)
    spec.paths = ["x"]
    spec.names = [(0, i, []) for i in range(names)]
    return spec


def path_counts(c):
    """At most 255 paths besides ivy:engine:free; that one is not counted, wherever it stands."""
    for call in CALLS:
        for others, frees, expected in ((254, [], 0), (255, [], 0), (256, [], 5), (255, [0], 0), (255, [100], 0),
                                        (255, [255], 0), (256, [0], 5), (256, [256], 5), (255, [0, 256], 6),
                                        (255, [255, 256], 6), (255, [0, 1, 2], 6), (256, [0, 257], 5)):
            spec = Spec(version=call)
            spec.paths = ["p%d" % i for i in range(others)]
            for at in frees:
                spec.paths.insert(at, FREE)
            name = "%d paths, the free one at %s" % (others, " ".join(map(str, frees)) or "none")
            c.add(call, name, expected, spec.bytes())
        spec = Spec(version=call)
        spec.paths = [FREE] * 300
        c.add(call, "the free path 300 times", 6, spec.bytes())
        for near in (FREE[:-1], FREE + "e", FREE[:-1] + "E", "I" + FREE[1:], FREE[1:], "x" + FREE):
            spec.paths = ["p%d" % i for i in range(254)] + [near]
            c.add(call, "254 paths and %s" % near, 0, spec.bytes())
            spec.paths = ["p%d" % i for i in range(255)] + [near]
            c.add(call, "255 paths and %s" % near, 5, spec.bytes())
        spec.paths = ["p%d" % i for i in range(255)] + ["p0"]
        c.add(call, "256 paths, two of them alike", 5, spec.bytes())
    spec = Spec(version=FLAT)
    spec.paths = [("%03d" % i) + "z" * 61 for i in range(255)] + [FREE]
    c.flat("255 paths of 64 bytes and the free one", 0, spec.bytes())
    spec.paths[254] = spec.paths[0]
    c.flat("255 paths of 64 bytes, the last like the first", 6, spec.bytes())


def name_counts(c):
    """1,024 names."""
    for call in CALLS:
        spec = spec_of(call, 1024)
        spec.nets = [NetSpec(0, 0, 0), NetSpec(1023, 1, 0)]
        c.add(call, "1,024 names, a net of the last", 0, spec.bytes())
        spec.nets[1].name = 1024
        c.add(call, "1,024 names, a net of number 1,024", 5, spec.bytes())
        spec.nets[1].name = 1023
        spec.names.append((0, 1024, []))
        c.add(call, "1,025 names", 5, spec.bytes())
    spec = spec_of(FLAT, 8)
    spec.names += [(0, i, [i - 1 - k for k in range(8)]) for i in range(8, 1024)]
    c.flat("1,024 names, most of 8 children", 0, spec.bytes())
    spec.names[1023] = spec.names[8]
    c.flat("1,024 names of which the last repeats number 8", 6, spec.bytes())


def rule_counts(c):
    """64 rules."""
    for call in CALLS:
        spec = spec_of(call)
        spec.rules = [(2, [])] * 63 + [(1, 0, 1)]
        c.add(call, "64 rules", 0, spec.bytes())
        spec.rules = [(2, [])] * 65
        c.add(call, "65 rules", 5, spec.bytes())
        spec.over["rules"] = 65 + 256
        c.add(call, "rule count 321, 65 of them there", 5, spec.bytes())
    spec = spec_of(FLAT)
    spec.rules = [(2, [0] * 255)] * 63 + [(5, [0] * 255, [0] * 255, [0] * 255)]
    c.flat("64 rules of lists of 255", 0, spec.bytes())


def net_counts(c):
    """256 nets."""
    for call in CALLS:
        spec = spec_of(call, 258)
        spec.nets = [NetSpec(i, i % 2, 65536) for i in range(256)]
        for net in spec.nets:
            net.free = [65535, 65535]
        c.add(call, "256 nets", 0, spec.bytes())
        spec.nets[255].free = [65535, 65534]
        c.add(call, "256 nets, the last not well wired", 7, spec.bytes())
        spec.nets[255].free = []
        spec.nets[254].name = 255
        c.add(call, "256 nets, the last two of one name", 6, spec.bytes())
        spec.nets[254].name = 254
        spec.nets.append(NetSpec(257, 0, 0))
        c.add(call, "257 nets", 5, spec.bytes())


def free_and_aux(c):
    """14 free ports, 15 aux."""
    for call in CALLS:
        for n, expected in ((13, 7), (14, 0), (15, 5), (16, 5), (255, 5)):
            spec = spec_of(call)
            spec.nets = [NetSpec(0, 1, 128)]
            spec.nets[0].free = [i // 2 for i in range(n)]
            c.add(call, "%d free ports" % n, expected, spec.bytes())
    for n, expected in ((14, 7), (15, 0), (16, 5), (17, 5), (255, 5)):
        spec = spec_of(FLAT)
        spec.nets = [NetSpec(0, 1, 129)]
        spec.nets[0].nodes = [(X, 0, [(i + 1) // 2 for i in range(n)])]
        c.flat("node of %d aux" % n, expected, spec.bytes())
    for n, expected in ((14, 0), (15, 7), (16, 5), (17, 5), (255, 5)):
        spec = spec_of(TREE)
        spec.nets = [NetSpec(0, 1, 128)]
        spec.nets[0].free = [(X, [i // 2 for i in range(n)])]
        c.tree("node of %d branches" % n, expected, spec.bytes())
    spec = spec_of(TREE)
    spec.nets = [NetSpec(0, 1, 128)]
    spec.nets[0].links = [((X, [i // 2 for i in range(15)]), 7)]
    c.tree("node of 15 branches, its wires all met", 0, spec.bytes())


def flat_nodes(c):
    """4,096 nodes a file, over all its nets, included or not."""

    def nodes(n):
        return [(X, i // 2, []) for i in range(n)]

    for label, parts, expected in (("one net", [4096], 0), ("256 nets", [16] * 256, 0),
                                   ("one net", [4097], 5), ("the first net and the last", [4096, 0, 1], 5)):
        spec = spec_of(FLAT, len(parts))
        for i, n in enumerate(parts):
            spec.nets.append(NetSpec(i, i % 2, 2048 + n % 2))
            spec.nets[i].nodes = nodes(n)
        c.flat("%d nodes in %s" % (sum(parts), label), expected, spec.bytes())
    spec = spec_of(FLAT, 16)
    spec.nets = [NetSpec(0, 1, 65536)]
    spec.nets[0].pairs = [(i, 65535 - i) for i in range(32768)]
    spec.nets[0].nodes = [((0, i, list(range(8))), 16 * i, list(range(16 * i + 1, 16 * i + 16))) for i in range(4096)]
    c.flat("4,096 nodes of 15 aux and 8 children, each wire in a pair", 0, spec.bytes())


def pair_counts(c):
    """65,536 wires make 32,768 pairs; one pair more has a wire twice."""
    spec = spec_of(FLAT)
    spec.nets = [NetSpec(0, 0, 65536)]
    spec.nets[0].pairs = [(2 * i, 2 * i + 1) for i in range(32767)] + [(65533, 65534), (65534, 65535)]
    c.flat("32,769 pairs", 6, spec.bytes())


def wide(depth, wires):
    """A tree all of whose nodes have 15 branches and 8 children."""
    if depth == 0:
        return next(wires) // 2
    return ((0, depth, list(range(8))), [wide(depth - 1, wires) for _ in range(15)])


def tree_nodes(c):
    """4,096 nodes a file, 15 branches, and as many links as their count can say."""
    spec = spec_of(TREE, 3)
    spec.nets = [NetSpec(i, i % 2, 0) for i in range(3)]
    last = spec.nets[2]
    spec.nets[0].free = [chain(64)] * 14
    spec.nets[0].links = [(chain(64), chain(64))] * 24 + [(chain(64), chain(63))]
    last.free = [chain(1)]
    c.tree("4,096 nodes, nearly all in trees of depth 64", 0, spec.bytes())
    last.free = [chain(1), chain(1)]
    c.tree("4,097 nodes, two of them in the last net's free", 5, spec.bytes())
    last.free, last.links = [], [(chain(1), chain(1))]
    c.tree("4,097 nodes, two of them in the last net's link", 5, spec.bytes())
    spec = spec_of(TREE, 8)
    places = iter(range(2 * 3375))
    spec.nets = [NetSpec(0, 1, 3375)]
    spec.nets[0].free = [wide(3, places)]
    spec.nets[0].links = [(wide(3, places), (X, []))]
    c.tree("482 nodes of 15 branches and 8 children", 0, spec.bytes())
    spec = spec_of(TREE)
    spec.nets = [NetSpec(0, 1, 65536)]
    spec.nets[0].free = [65535, 65535]
    spec.nets[0].links = [(i, 65534 - i) for i in range(65535)]
    c.tree("65,535 links, every one of 65,536 wires twice", 0, spec.bytes())


def all_vectors(c):
    path_counts(c)
    name_counts(c)
    rule_counts(c)
    net_counts(c)
    free_and_aux(c)
    flat_nodes(c)
    pair_counts(c)
    tree_nodes(c)
