"""What the lists of vectors have in common: names that differ, a stream that the replay program reads, and how they are made."""

import hashlib
import os
import sys
import tempfile

HERE = os.path.dirname(os.path.abspath(__file__))


class Vectors:
    """A list of vectors. A kind of them says what goes into the stream (`parts`) and how its answers are counted (`counts`)."""

    largest_stream = 1500000

    def __init__(self):
        self.vectors = []
        self.names = set()

    def take_name(self, name):
        if name in self.names:
            raise SystemExit("%s: two vectors of this name" % name)
        self.names.add(name)

    def stream(self):
        """What the replay program reads."""
        out = b"".join(part for v in self.vectors for part in self.parts(v))
        if len(out) > self.largest_stream:
            raise SystemExit("%d bytes of stream" % len(out))
        return out

    def report(self):
        """What the replay program writes when every answer is as expected."""
        return b"%d files, 0 different\n" % len(self.vectors)

    def write(self, crate):
        folder = os.path.join(HERE, "..", "crates", crate)
        os.makedirs(folder, exist_ok=True)
        stream = self.stream()
        with open(os.path.join(folder, "stdin"), "wb") as out:
            out.write(stream)
        with open(os.path.join(folder, "stdout"), "wb") as out:
            out.write(self.report())
        print(self.counts())
        print("%d vectors, %d bytes, sha256 %s" % (len(self.vectors), len(stream), hashlib.sha256(stream).hexdigest()))

    def grown_by(self, groups):
        """With the vectors of the named groups: how many each has is said on the way."""
        for name, group in groups:
            before = len(self.vectors)
            group(self)
            print("%-16s %5d" % (name, len(self.vectors) - before), file=sys.stderr)
        return self


def by_original(kind, groups, oracle):
    """Vectors whose results are asked of the Rust original, which is built in a copy."""
    from comparing.original import Original, built
    folder = os.path.join(tempfile.gettempdir(), "ivy-compare-%d" % os.getuid())
    os.makedirs(folder, exist_ok=True)
    original = Original(built(oracle, folder))
    collection = kind(original).grown_by((group.__name__, group) for group in groups)
    original.close()
    return collection


def main(doc, args, crate, collected):
    """`collected` gives the vectors, from the oracle's folder."""
    if not args or not os.path.isfile(os.path.join(args[0], "model.py")):
        raise SystemExit(doc)
    sys.dont_write_bytecode = True
    sys.path.insert(0, os.path.abspath(args[0]))
    collection = collected(os.path.abspath(args[0]))
    if args[1:] == ["--list"]:
        for i, v in enumerate(collection.vectors):
            print("\t".join(str(word) for word in (i,) + collection.row(v)))
    elif args[1:2] == ["--show"]:
        print(collection.vectors[int(args[2])].file.hex())
    else:
        collection.write(crate)
