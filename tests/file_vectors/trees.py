"""Trees: depth at most 64 (a wire is 0, a node one more than its deepest child, 1 if childless), and the tags."""

from gen import NetSpec, Spec

from .collection import TREE
from .draft import Draft, tree_base

NODE = b"\1" + bytes(11)        # tag 1 and a name of path 0, payload 0 and no child


def chain(nodes, end=b""):
    """So many nodes one below the other, over a tree or over nothing; as bytes, however deep."""
    if not nodes:
        return end
    return (NODE + b"\1") * (nodes - 1) + NODE + (b"\1" if end else b"\0") + end


def wire(n):
    return b"\0" + n.to_bytes(2, "big")


def spec_of(free, links):
    spec = Spec(version=TREE)
    spec.paths, spec.names = ["x"], [(0, 0, [])]
    spec.nets = [NetSpec(0, 1, 2)]
    spec.nets[0].free, spec.nets[0].links = free, links
    return spec


def depths(c):
    for nodes, expected in ((0, 0), (1, 0), (63, 0), (64, 0), (65, 5), (66, 5), (128, 5), (256, 5), (1024, 5)):
        over = chain(nodes, wire(0))
        c.tree("depth %d over a wire, free" % nodes, expected, spec_of([over, 0], []).bytes())
        if 0 < nodes < 100:
            c.tree("depth %d, childless, free" % nodes, expected, spec_of([chain(nodes)], []).bytes())
        if nodes < 100:
            c.tree("depth %d over a wire, left" % nodes, expected, spec_of([], [(over, 0)]).bytes())
            c.tree("depth %d over a wire, right" % nodes, expected, spec_of([], [(0, over)]).bytes())
    for nodes, expected in ((63, 0), (64, 5)):
        below = chain(nodes)
        for place in range(3):
            branches = [wire(0), wire(0)]
            branches.insert(place, below)
            c.tree("depth %d, the deep branch at %d of 3" % (nodes + 1, place), expected,
                   spec_of([NODE + b"\3" + b"".join(branches)], []).bytes())
    c.tree("depth 64 in each of 14 free and a link", 0,
           spec_of([chain(64)] * 14, [(chain(64), chain(64))]).bytes())
    c.tree("depth 64 in 14 free, 65 in the last link", 5,
           spec_of([chain(64)] * 14, [(chain(64), chain(65))]).bytes())
    comb = chain(1)
    for _ in range(63):
        comb = NODE + b"\3" + chain(1) + comb + chain(1)
    c.tree("depth 64, side branches all the way", 0, spec_of([comb], []).bytes())
    c.tree("depth 65, side branches all the way", 5, spec_of([NODE + b"\1" + comb], []).bytes())


# With one of these tags turned round, what follows is read askew, yet as trees: a wire is then met once or thrice.
ASKEW = {"net 0 link 0 right branch 0 tag": 7, "net 0 link 0 right branch 1 tag": 7}


def tags(c):
    draft = Draft(tree_base())
    for label in draft.labels("tag"):
        if label.startswith("net"):
            for n in (2, 255):
                c.tree("%s %d" % (label, n), 5, draft.with_({label: n}))
            other = 1 - draft.number(label)
            c.tree("%s %d for %d" % (label, other, 1 - other), ASKEW.get(label, 5), draft.with_({label: other}))


def links(c):
    for n in (0, 1, 255, 256, 257):
        spec = spec_of([], [(0, 0)] * (n > 0) + [(chain(1), chain(1))] * (n - 1))
        c.tree("%d links" % n, 0, spec.bytes())


def all_vectors(c):
    depths(c)
    tags(c)
    links(c)
