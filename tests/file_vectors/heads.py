"""The first nine bytes: refusals 2, 3 and 4, and files too short to have them."""

from gen import NONE

from .collection import FLAT, TREE
from .draft import Draft, flat_base, framed, tree_base

BASES = ((FLAT, flat_base), (TREE, tree_base))
MOST = 16777216


def lengths(c):
    """2: file under 5 bytes, or length field wrong."""
    for call, base in BASES:
        good = Draft(base()).file()
        length = len(good) - 4
        for n in range(5):
            c.add(call, "only the first %d bytes" % n, 2, good[:n])
        c.add(call, "four bytes whose length field is right", 2, b"\0\0\0\0")
        c.add(call, "one byte", 2, bytes([call]))
        c.add(call, "a byte too many", 2, good + b"\0")
        c.add(call, "four bytes too many", 2, good + bytes(4))
        c.add(call, "a byte too few", 2, good[:-1])
        wrong = [0, 1, length - 4, length - 1, length + 1, length + 4, length + 256, length + 65536,
                 length + 2 ** 24, length + 2 ** 31, 2 ** 32 - 1]
        for n in wrong:
            c.add(call, "length field %d for %d" % (n, length), 2, n.to_bytes(4, "big") + good[4:])
        c.add(call, "length field in little-endian", 2, length.to_bytes(4, "little") + good[4:])
        c.add(call, "length right, in the low two bytes only", 2, b"\xff\xff" + good[2:])


def versions(c):
    """3: version not known, or not the one this call takes."""
    for call, base in BASES:
        draft = Draft(base())
        other = TREE if call == FLAT else FLAT
        for n in (0, 2, 63, 64, 66, 129, 193, 255, other):
            c.add(call, "version %d" % n, 3, draft.with_({"version": n}))
        for n in (0, 2, 64, 66, 255, other):
            c.add(call, "5 bytes, version %d" % n, 3, framed(bytes([n])))
        for size in (6, 7, 8):
            c.add(call, "%d bytes, version 2" % size, 3, framed(bytes([2]) + b"\xff" * (size - 5)))
        c.add(call, "9 bytes, version 2, limit 4,294,967,294", 3, framed(b"\2\xff\xff\xff\xfe"))


def limits(c):
    """4: limit neither none nor at most 16,777,216; read only where the file has its 4 bytes."""
    for call, base in BASES:
        draft = Draft(base())
        for n in (0, 1, 255, 256, 65536, MOST - 1, MOST, NONE):
            c.add(call, "limit %d" % n, 0, draft.with_({"limit": n}))
        for n in (MOST + 1, MOST + 256, MOST + 65536, 2 * MOST, 2 ** 31 - 1, 2 ** 31, 0xFF000000, NONE - 256, NONE - 1):
            c.add(call, "limit %d" % n, 4, draft.with_({"limit": n}))
        for n in (0, 5, MOST, NONE):
            c.add(call, "9 bytes, limit %d" % n, 5, framed(bytes([call]) + n.to_bytes(4, "big")))
        for n in (MOST + 1, NONE - 1):
            c.add(call, "9 bytes, limit %d" % n, 4, framed(bytes([call]) + n.to_bytes(4, "big")))
            c.add(call, "10 bytes, limit %d" % n, 4, framed(bytes([call]) + n.to_bytes(4, "big") + b"\0"))
        for size in (5, 6, 7, 8):
            for byte in (0, 255):
                if size == 5 and byte:
                    continue
                c.add(call, "%d bytes, the limit cut, bytes %d" % (size, byte), 5,
                      framed(bytes([call]) + bytes([byte]) * (size - 5)))


def least(c):
    """Empty tables are accepted, each count alone is asked for."""
    for call, _ in BASES:
        head = bytes([call]) + b"\xff\xff\xff\xff"
        c.add(call, "empty tables", 0, framed(head + bytes(8)))
        for n in range(1, 8):
            c.add(call, "empty tables, %d bytes of the counts" % n, 5, framed(head + bytes(n)))
        for n in (9, 10):
            c.add(call, "empty tables, %d bytes of counts" % n, 5, framed(head + bytes(n)))
        for i, what in enumerate(("path", "name", "rule", "net")):
            counts = bytearray(8)
            counts[2 * i + 1] = 1
            c.add(call, "%s count 1 and nothing more" % what, 5, framed(head + bytes(counts)))
            counts[2 * i:2 * i + 2] = b"\xff\xff"
            c.add(call, "%s count 65,535 and nothing more" % what, 5, framed(head + bytes(counts)))


def all_vectors(c):
    lengths(c)
    versions(c)
    limits(c)
    least(c)
