"""Checks run 2 to 8, each over the whole file before the next: the lower number wins, wherever it stands."""

from itertools import combinations

from gen import FREE, NetSpec, Spec

from .collection import FLAT, TREE


def base(call):
    """Five paths, four names, two rules, four nets: a fault can stand early or late in each table."""
    spec = Spec(version=call, limit=7)
    spec.paths = ["a", "b", "c", FREE, "d"]
    spec.names = [(0, i, []) for i in range(4)]
    spec.rules = [(2, [0]), (1, 1, 0)]
    for i in range(4):
        net = NetSpec(i, (i + 1) % 2, 4)
        if call == FLAT:
            net.free, net.pairs = [0], [(1, 2)]
            net.nodes = [((0, 0, []), 0, [1, 2])]
        else:
            net.free = [0, ((0, 0, []), [1])]
            net.links = [(0, 1)]
        spec.nets.append(net)
    return spec


def set_version(spec):
    spec.version_byte = 2


def set_limit(spec):
    spec.limit = 16777217


def blank_in_first_path(spec):
    spec.paths[0] = " "


def last_net_marked_2(spec):
    spec.nets[3].included = 2


def byte_left_over(spec):
    spec.tail = b"\0"


def path_repeated(spec):
    spec.paths[2] = spec.paths[1]


def name_repeated(spec):
    spec.names[1] = spec.names[0]


def last_net_out_of_order(spec):
    spec.nets[3].name = 1


def last_pair_larger_first(spec):
    spec.nets[3].pairs = [(2, 1)]


def first_net_wire_once(spec):
    spec.nets[0].free.append(3)


def last_net_wire_three_times(spec):
    spec.nets[3].free.append(0)


def first_rule_names_free(spec):
    spec.rules[0] = (2, [3])


def last_rule_names_free(spec):
    spec.rules[1] = (1, 3, 0)


def wrong_length(spec):
    spec.length_off = 1


FAULTS = ((2, wrong_length), (3, set_version), (4, set_limit),
          (5, blank_in_first_path), (5, last_net_marked_2), (5, byte_left_over),
          (6, path_repeated), (6, name_repeated), (6, last_net_out_of_order), (6, last_pair_larger_first),
          (7, first_net_wire_once), (7, last_net_wire_three_times),
          (8, first_rule_names_free), (8, last_rule_names_free))


def with_faults(call, faults):
    spec = base(call)
    for fault in faults:
        fault(spec)
    data = spec.bytes()
    version = getattr(spec, "version_byte", data[4])
    length = len(data) - 4 + getattr(spec, "length_off", 0)
    return length.to_bytes(4, "big") + bytes([version]) + data[5:]


def all_vectors(c):
    for call in (FLAT, TREE):
        faults = [(n, f) for n, f in FAULTS if call == FLAT or f is not last_pair_larger_first]
        words = lambda f: f.__name__.replace("_", " ")
        c.add(call, "mixture of nothing", 0, with_faults(call, []))
        for n, f in faults:
            c.add(call, "only " + words(f), n, with_faults(call, [f]))
        for (m, f), (n, g) in combinations(faults, 2):
            if m != n:
                c.add(call, "%s, %s" % (words(f), words(g)), min(m, n), with_faults(call, [f, g]))
        for least in range(2, 9):
            c.add(call, "every fault of %d to 8" % least, least,
                  with_faults(call, [f for n, f in faults if n >= least]))
