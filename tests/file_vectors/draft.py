"""A net file as labelled fields, so that a test can name the field that it cuts, counts wrong or sets.

The labels are the words of document 01: "net 0 wire counter", "name 2 child 1", "rule 4 list 2 path 0".
A tree's subtrees are its branches, to keep them apart from the children of its name.
"""

from gen import FREE, NetSpec, Spec, encode


def framed(body):
    """The file whose bytes after the length field are these."""
    return len(body).to_bytes(4, "big") + body


class Draft:
    """A file in fields: label to bytes, in the order of the file, without the length field."""

    def __init__(self, spec):
        self.fields = {}
        self._file(spec)
        # Two writers that were written apart agree on every draft.
        assert self.file() == encode(spec)

    def file(self):
        return framed(b"".join(self.fields.values()))

    def labels(self, *words):
        """The labels that end in one of these words, numbers after it apart."""
        return [label for label in self.fields if label.rstrip(" 0123456789").endswith(words)]

    def number(self, label):
        return int.from_bytes(self.fields[label], "big")

    def with_(self, changes):
        """The file with these fields set to other numbers, or to other bytes."""
        body = b""
        for label, old in self.fields.items():
            new = changes.get(label, old)
            body += new if isinstance(new, bytes) else new.to_bytes(len(old), "big")
        assert all(label in self.fields for label in changes), changes
        return framed(body)

    def cuts(self):
        """(where, file) for a cut before each field and inside it, the length field as for the whole file."""
        whole, at = self.file(), 4
        for label, field in self.fields.items():
            if label != "version":
                yield "before " + label, whole[:at]
            for inside in sorted({1, len(field) // 2, len(field) - 1} - {0}):
                if inside < len(field):
                    yield "%d bytes into %s" % (inside, label), whole[:at + inside]
            at += len(field)

    # The writer, field by field.

    def _put(self, label, number, size):
        assert label not in self.fields, label
        self.fields[label] = number.to_bytes(size, "big")

    def _name(self, where, name):
        path, payload, children = name
        self._put(where + " path", path, 2)
        self._put(where + " payload", payload, 8)
        self._put(where + " child count", len(children), 1)
        for i, child in enumerate(children):
            self._put("%s child %d" % (where, i), child, 2)

    def _rule(self, where, rule):
        self._put(where + " tag", rule[0], 1)
        if rule[0] == 1:
            self._put(where + " path", rule[1], 2)
            self._put(where + " lazy", rule[2], 1)
            return
        for i, paths in enumerate(rule[1:]):
            self._put("%s list %d count" % (where, i), len(paths), 1)
            for k, path in enumerate(paths):
                self._put("%s list %d path %d" % (where, i, k), path, 2)

    def _tree(self, where, tree):
        if isinstance(tree, int):
            self._put(where + " tag", 0, 1)
            self._put(where + " wire", tree, 2)
            return
        name, branches = tree
        self._put(where + " tag", 1, 1)
        self._name(where, name)
        self._put(where + " branch count", len(branches), 1)
        for i, branch in enumerate(branches):
            self._tree("%s branch %d" % (where, i), branch)

    def _flat_net(self, where, net):
        for i, wire in enumerate(net.free):
            self._put("%s free wire %d" % (where, i), wire, 2)
        self._put(where + " pair count", len(net.pairs), 2)
        for i, (first, second) in enumerate(net.pairs):
            self._put("%s pair %d first wire" % (where, i), first, 2)
            self._put("%s pair %d second wire" % (where, i), second, 2)
        self._put(where + " node count", len(net.nodes), 2)
        for i, (name, principal, aux) in enumerate(net.nodes):
            node = "%s node %d" % (where, i)
            self._name(node, name)
            self._put(node + " principal wire", principal, 2)
            self._put(node + " aux count", len(aux), 1)
            for k, wire in enumerate(aux):
                self._put("%s aux wire %d" % (node, k), wire, 2)

    def _tree_net(self, where, net):
        for i, tree in enumerate(net.free):
            self._tree("%s free %d" % (where, i), tree)
        self._put(where + " link count", len(net.links), 2)
        for i, (left, right) in enumerate(net.links):
            self._tree("%s link %d left" % (where, i), left)
            self._tree("%s link %d right" % (where, i), right)

    def _file(self, spec):
        self._put("version", spec.version, 1)
        self._put("limit", spec.limit, 4)
        self._put("path count", len(spec.paths), 2)
        for i, path in enumerate(spec.paths):
            self._put("path %d length" % i, len(path), 1)
            self.fields["path %d bytes" % i] = path.encode("latin-1")
        self._put("name count", len(spec.names), 2)
        for i, name in enumerate(spec.names):
            self._name("name %d" % i, name)
        self._put("rule count", len(spec.rules), 2)
        for i, rule in enumerate(spec.rules):
            self._rule("rule %d" % i, rule)
        self._put("net count", len(spec.nets), 2)
        for i, net in enumerate(spec.nets):
            where = "net %d" % i
            self._put(where + " name", net.name, 2)
            self._put(where + " included", net.included, 1)
            self._put(where + " wire counter", net.wires, 4)
            self._put(where + " free count", len(net.free), 1)
            (self._flat_net if spec.version == 1 else self._tree_net)(where, net)


def tables(version):
    """Four paths (the free one is number 2), three names, a rule of each tag; no net yet."""
    spec = Spec(version=version, limit=5)
    spec.paths = ["x", "yy", FREE, "z~!"]
    spec.names = [(0, 0, []), (1, 7, [0]), (1, 7, [0, 1])]
    spec.rules = [(1, 0, 1), (2, [0, 1]), (3, [0], [1, 3]), (4, [0, 3], [3, 1]), (5, [0, 1], [1, 0], [3, 1])]
    return spec


def flat_base():
    """Something in every table; wires 0 to 6 of 8 are used, 1=4 and 2=6 are pairs."""
    spec = tables(1)
    for name, included in ((0, 1), (2, 0)):
        net = NetSpec(name, included, 8)
        net.free = [0, 1]
        net.pairs = [(1, 4), (2, 6)]
        net.nodes = [((0, 0, []), 2, [0]), ((1, 1, [0, 2]), 6, [4]), ((2, 0, []), 5, [3, 3, 5])]
        spec.nets.append(net)
    return spec


def tree_base():
    """Something in every table; wires 0 to 3 of 5 are used in net 0, wire 4 of 5 in net 2."""
    spec = tables(65)
    first, last = NetSpec(0, 1, 5), NetSpec(2, 0, 5)
    first.free = [0, ((0, 0, []), [0, ((1, 1, [0, 2]), [1])])]
    first.links = [(1, ((2, 0, []), [2, 2])), (((0, 0, []), []), ((1, 0, []), [3, 3]))]
    last.free = [((0, 0, []), [4])]
    last.links = [(4, ((3, 0, []), []))]
    spec.nets = [first, last]
    return spec
