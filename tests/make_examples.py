#!/usr/bin/env python3
"""Makes the files of examples/, and the input of the program check_file.

  python3 tests/make_examples.py ORACLE            write them
  python3 tests/make_examples.py ORACLE --fields   print the fields of P1 and of the tree file, with their places

ORACLE is the folder that holds model.py and gen.py.
"""

import os
import sys

ROOT = os.path.dirname(os.path.dirname(os.path.abspath(__file__)))


def p1():
    """Case P1 of document 01."""
    from gen import NetSpec, Spec
    spec = Spec(limit=5)
    spec.paths, spec.names, spec.rules = ["x"], [(0, 0, [])], [(2, [0])]
    net = NetSpec(0, 1, 3)
    net.free = [0, 1]
    net.nodes = [((0, 0, []), 2, [0]), ((0, 0, []), 2, [1])]
    spec.nets = [net]
    return spec


def p1_tree():
    """P1 as a tree net: free 0 and 1, and a link x(0) = x(1)."""
    spec = p1()
    spec.version = 65
    net = spec.nets[0]
    net.wires, net.nodes = 2, []
    net.links = [(((0, 0, []), [0]), ((0, 0, []), [1]))]
    return spec


def small_tree():
    """One net: free 0, and a link x(0, 1) = y(1)."""
    from gen import NetSpec, Spec
    spec = Spec(version=65)
    spec.paths, spec.names = ["x", "y"], [(0, 0, [])]
    net = NetSpec(0, 1, 2)
    net.free = [0]
    net.links = [(((0, 0, []), [0, 1]), ((1, 0, []), [1]))]
    spec.nets = [net]
    return spec


def repeated_path():
    """P1 with its path twice in the table."""
    spec = p1()
    spec.paths = ["x", "x"]
    return spec


def write(name, data):
    with open(os.path.join(ROOT, *name.split("/")), "wb") as out:
        out.write(data)


def print_fields(spec):
    from file_vectors.draft import Draft
    draft = Draft(spec)
    print("%4d  %-24s  %s" % (0, draft.file()[:4].hex(" "), "length"))
    at = 4
    for label, field in draft.fields.items():
        print("%4d  %-24s  %s" % (at, field.hex(" "), label))
        at += len(field)


def main(args):
    if not args or not os.path.isfile(os.path.join(args[0], "model.py")):
        raise SystemExit(__doc__)
    sys.dont_write_bytecode = True
    sys.path[:0] = [args[0], os.path.dirname(os.path.abspath(__file__))]
    import gen
    import model
    if args[1:] == ["--fields"]:
        print_fields(p1())
        print_fields(small_tree())
        return
    assert p1().bytes() == next(case.data for case in gen.examples() if case.label == "P1")
    for name, spec, version, answer in (("p1", p1(), 1, 0), ("p1-tree", p1_tree(), 65, 0), ("tree", small_tree(), 65, 0),
                                        ("repeated-path", repeated_path(), 1, 6)):
        assert model.verdict(spec.bytes(), version) == answer
        write("examples/%s.net" % name, spec.bytes())
    write("crates/check_file/stdin", p1().bytes())
    write("crates/check_file/stdout", b"accepted\n")


if __name__ == "__main__":
    main(sys.argv[1:])
