"""5: each field at both ends of its range, in both versions."""

from gen import FREE, NetSpec, Spec

from .collection import FLAT, TREE
from .draft import Draft, flat_base, tree_base

BASES = ((FLAT, flat_base), (TREE, tree_base))


def at_ends(c, call, draft, label, last_good, most):
    """The last number in range is accepted, the next and the largest are 5."""
    c.add(call, "%s %d" % (label, last_good), 0, draft.with_({label: last_good}))
    for n in (last_good + 1, most):
        c.add(call, "%s %d" % (label, n), 5, draft.with_({label: n}))


def paths(c):
    """Each path: u8 length 1 to 64 and bytes 33 to 126."""
    for call, base in BASES:
        draft = Draft(base())
        for n, expected in ((0, 5), (1, 0), (2, 0), (63, 0), (64, 0), (65, 5), (66, 5), (128, 5), (255, 5)):
            c.add(call, "path of %d bytes" % n, expected,
                  draft.with_({"path 1 length": n, "path 1 bytes": b"q" * n}))
        for byte, expected in ((0, 5), (10, 5), (32, 5), (33, 0), (34, 0), (125, 0), (126, 0), (127, 5), (128, 5),
                               (161, 5), (255, 5)):
            for where, path in (("first", b"%cqq"), ("middle", b"q%cq"), ("last", b"qq%c")):
                c.add(call, "path's %s byte %d" % (where, byte), expected,
                      draft.with_({"path 3 bytes": path % byte}))
        for label in ("path 0 bytes", "path 2 bytes", "path 3 bytes"):
            bad = draft.fields[label][:-1] + b" "
            c.add(call, "%s end in a blank" % label, 5, draft.with_({label: bad}))


def names(c):
    """A name: u16 path, u64 payload, u8 child count 0 to 8, u16 name numbers; a child is lower than its owner."""
    for call, base in BASES:
        draft = Draft(base())
        for label in draft.labels("payload"):
            c.add(call, "%s at its largest" % label, 0, draft.with_({label: 2 ** 64 - 1}))
        at_ends(c, call, draft, "name 0 path", 3, 65535)
        at_ends(c, call, draft, "name 2 path", 3, 65535)
        at_ends(c, call, draft, "name 2 child 0", 1, 65535)
        at_ends(c, call, draft, "name 2 child 1", 1, 65535)
        for n in (1, 2, 3, 255, 256, 65535):
            c.add(call, "name 1 child 0 is %d" % n, 5, draft.with_({"name 1 child 0": n}))
        for n in (0, 1, 2, 65535):
            c.add(call, "name 0 with child %d" % n, 5,
                  draft.with_({"name 0 child count": b"\1" + n.to_bytes(2, "big")}))
        for n, expected in ((0, 0), (7, 0), (8, 0), (9, 5), (16, 5), (255, 5)):
            children = bytes([n]) + b"\0\0" * n
            spec = base()
            spec.names.append((3, 9, [0] * n))
            c.add(call, "name of %d children" % n, expected, spec.bytes())
            where = "net 0 node 0" if call == FLAT else "net 0 free 1"
            c.add(call, "node whose name has %d children" % n, expected,
                  draft.with_({where + " child count": children}))
        nodes = "net 0 node 1" if call == FLAT else "net 0 free 1 branch 1"
        at_ends(c, call, draft, nodes + " path", 3, 65535)
        at_ends(c, call, draft, nodes + " child 0", 2, 65535)
        at_ends(c, call, draft, nodes + " child 1", 2, 65535)
    c.flat("the last net's last node's path 4", 5, Draft(flat_base()).with_({"net 1 node 2 path": 4}))
    c.tree("the last link's right path 4", 5, Draft(tree_base()).with_({"net 1 link 0 right path": 4}))


def rules(c):
    """Tags 1 to 5; lazy 0 or 1; every path number below the path count."""
    for call, base in BASES:
        draft = Draft(base())
        for n, expected in ((0, 0), (1, 0), (2, 5), (3, 5), (255, 5)):
            c.add(call, "lazy %d" % n, expected, draft.with_({"rule 0 lazy": n}))
        for label in draft.labels("path"):
            if label.startswith("rule"):
                at_ends(c, call, draft, label, 3, 65535)
        for tag in (0, 6, 7, 65, 128, 255):
            for rule, label in ((0, "first"), (4, "last")):
                c.add(call, "tag %d on the %s rule" % (tag, label), 5, draft.with_({"rule %d tag" % rule: tag}))
            for lists in range(4):
                spec = base()
                spec.rules.append((tag,) + ([],) * lists)
                c.add(call, "tag %d and %d empty lists" % (tag, lists), 5, spec.bytes())
        for tag, lists in ((2, 1), (3, 2), (4, 2), (5, 3)):
            spec = base()
            spec.rules = [(tag,) + tuple([] for _ in range(lists))]
            c.add(call, "tag %d alone, of empty lists" % tag, 0, spec.bytes())
            spec.rules = [(tag,) + tuple([] for _ in range(lists - 1))]
            c.add(call, "tag %d alone, a list too few" % tag, 5, spec.bytes())
            spec.rules = [(tag,) + tuple([] for _ in range(lists + 1))]
            c.add(call, "tag %d alone, a list too many" % tag, 5, spec.bytes())
            spec.rules = [(tag,) + tuple([0] * 255 for _ in range(lists))]
            c.add(call, "tag %d alone, lists of 255" % tag, 0, spec.bytes())
            spec.rules = [(tag,) + tuple([0] * 254 + [4] for _ in range(lists))]
            c.add(call, "tag %d alone, the 255th path 4" % tag, 5, spec.bytes())
        spec = base()
        spec.rules = [(1, 3, 0)]
        c.add(call, "tag 1 alone", 0, spec.bytes())
        spec.rules = []
        c.add(call, "no rule", 0, spec.bytes())


def no_tables(c):
    """A number is below its count also where the count is 0."""
    for call, _ in BASES:
        for what in ("name", "rule", "list", "net", "node"):
            spec = Spec(version=call)
            if what == "name":
                spec.names = [(0, 0, [])]
            elif what == "rule":
                spec.rules = [(1, 0, 0)]
            elif what == "list":
                spec.rules = [(2, [0])]
            elif what == "net":
                spec.paths = ["x"]
                spec.nets = [NetSpec(0, 1, 0)]
            else:
                spec.paths, spec.names = ["x"], [(0, 0, [])]
                spec.nets = [NetSpec(0, 1, 0)]
                if call == FLAT:
                    spec.nets[0].nodes = [((1, 0, []), 0, [])]
                else:
                    spec.nets[0].free = [((1, 0, []), [])]
            c.add(call, "a %s that names what no table has" % what, 5, spec.bytes())
        spec = Spec(version=call)
        spec.rules = [(2, []), (5, [], [], [])]
        c.add(call, "rules of empty lists over no path", 0, spec.bytes())
        spec.paths = [FREE]
        c.add(call, "the free path alone", 0, spec.bytes())


def nets(c):
    """u16 name number, u8 included 0 or 1, u32 wire counter at most 65,536."""
    for call, base in BASES:
        draft = Draft(base())
        top = 7 if call == FLAT else 4
        at_ends(c, call, draft, "net 1 name", 2, 65535)
        for net in (0, 1):
            label = "net %d included" % net
            for n, expected in ((0, 0), (1, 0), (2, 5), (128, 5), (255, 5)):
                c.add(call, "%s %d" % (label, n), expected, draft.with_({label: n}))
            label = "net %d wire counter" % net
            good = top if net == 0 else 7 if call == FLAT else 5
            for n, expected in ((0, 5), (good - 1, 5), (good, 0), (256, 0), (65535, 0), (65536, 0), (65537, 5),
                                (131072, 5), (2 ** 24 + good, 5), (2 ** 32 - 1, 5)):
                c.add(call, "%s %d" % (label, n), expected, draft.with_({label: n}))


def wires(c):
    """Every wire below its counter, in each place that a wire can stand in."""
    for call, base in BASES:
        draft = Draft(base())
        counter = 8 if call == FLAT else 5
        for label in draft.labels("wire"):
            c.add(call, "%s at the counter" % label, 5, draft.with_({label: counter}))
            c.add(call, "%s 65535" % label, 5, draft.with_({label: 65535}))
    for counter, expected in ((256, 5), (257, 0), (65536, 0)):
        for what in ("free", "pair", "node"):
            net = NetSpec(0, 1, counter)
            net.free = [256, 256] if what == "free" else []
            net.pairs = [(1, 256)] if what == "pair" else []
            net.nodes = [((0, 0, []), 256, [256])] if what == "node" else []
            spec = Spec(limit=5)
            spec.paths, spec.names, spec.nets = ["x"], [(0, 0, [])], [net]
            c.flat("wire 256 in a %s, counter %d" % (what, counter), expected, spec.bytes())
        net = NetSpec(0, 1, counter)
        net.free = [((0, 0, []), [256]), 256]
        spec = Spec(version=65)
        spec.paths, spec.names, spec.nets = ["x"], [(0, 0, [])], [net]
        c.tree("wire 256, counter %d" % counter, expected, spec.bytes())


def all_vectors(c):
    paths(c)
    names(c)
    rules(c)
    no_tables(c)
    nets(c)
    wires(c)
