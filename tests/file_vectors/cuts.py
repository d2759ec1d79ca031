"""5: bytes run out or left over; and every count of the file one more and one less."""

from .collection import FLAT, TREE
from .draft import Draft, flat_base, framed, tree_base

BASES = ((FLAT, flat_base), (TREE, tree_base))


def cut(c):
    """A cut before each field and inside it: 5 with the length field made right, 2 as it was."""
    for call, base in BASES:
        for i, (where, part) in enumerate(Draft(base()).cuts()):
            if len(part) >= 5:
                c.add(call, "cut " + where, 5, framed(part[4:]))
            if i % 8 == 0:
                c.add(call, "cut %s, length as for the whole" % where, 2, part)


def left_over(c):
    for call, base in BASES:
        draft = Draft(base())
        good = draft.file()
        for name, tail in (("a zero", b"\0"), ("a byte 1", b"\1"), ("two zeros", b"\0\0"), ("255 bytes", b"\xff" * 255),
                           ("the file again", good), ("its last field again", list(draft.fields.values())[-1])):
            c.add(call, "%s left over" % name, 5, framed(good[4:] + tail))


def counts(c):
    """Every count field one more and one less than what stands there."""
    for call, base in BASES:
        draft = Draft(base())
        for label in draft.labels("count"):
            n = draft.number(label)
            c.add(call, "%s %d for %d" % (label, n + 1, n), 5, draft.with_({label: n + 1}))
            if n > 0:
                c.add(call, "%s %d for %d" % (label, n - 1, n), 5, draft.with_({label: n - 1}))


def path_lengths(c):
    """The length of a path one more and one less: what follows is then read askew."""
    for call, base in BASES:
        draft = Draft(base())
        for label in draft.labels("length"):
            n = draft.number(label)
            for wrong in (n - 1, n + 1):
                c.add(call, "%s %d for %d" % (label, wrong, n), 5, draft.with_({label: wrong}))


def all_vectors(c):
    cut(c)
    left_over(c)
    counts(c)
    path_lengths(c)
