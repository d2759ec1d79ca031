"""3: the files also given to the call of the other version, which is to look no further than their fifth byte."""

from .collection import FLAT, TREE

LARGEST = 250           # bytes; a longer file shows no more


def all_vectors(c):
    for v in list(c.vectors):
        other = TREE if v.call == FLAT else FLAT
        if len(v.file) > LARGEST or ": cut " in v.name or (other, v.file) in c.given:
            continue
        if len(v.file) >= 5 and v.file[4] == other:
            continue        # the version is the other call's: no wrong call
        c.add(other, "wrong call, %s" % v.name, 2 if v.expected == 2 else 3, v.file)
