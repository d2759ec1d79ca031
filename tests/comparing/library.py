"""The calls of include/ivy.h, by ctypes, on lent memory that is looked at before and after each call.

Each call is held against what include/ivy.h says of everything that was lent: what a refusal leaves, what a success leaves,
that no output is written on refusal, and that nothing past the used part changes."""

import ctypes
import os
import subprocess

NONE = 0xFFFFFFFF
MOST_STEPS = 16777216
GUARD = 32                      # words and bytes lent past the used part

UNCHANGED, ZEROS, ANY = "unchanged", "zeros", "any"
# What each call may be refused by, and what that leaves in the workspace; 0 is success.
LEAVES = {
    "begin": {**dict.fromkeys(range(1, 9), UNCHANGED), 9: ZEROS, 10: ZEROS, 0: ANY},
    "slice": {1: UNCHANGED, 16: UNCHANGED, 4: UNCHANGED, **dict.fromkeys(range(9, 15), ZEROS), 0: ANY},
    "finish": {1: UNCHANGED, 16: UNCHANGED, 15: UNCHANGED, 0: ZEROS},
    "optimize": {**dict.fromkeys(range(1, 9), UNCHANGED), **dict.fromkeys(range(9, 16), ZEROS), 0: ZEROS},
}


class Different(Exception):
    """Something is not as it should be."""


class Answer(ctypes.Structure):
    _fields_ = [("refusal", ctypes.c_uint32), ("value", ctypes.c_uint32)]


def linked(archive, folder):
    """The static library as a shared one, under a name of this process's own."""
    if not os.path.isfile(archive):
        raise SystemExit("%s is not there: rt lib in crates/ivy_c makes it" % archive)
    shared = os.path.join(folder, "libivy_c-%d.so" % os.getpid())
    subprocess.check_call(["gcc", "-shared", "-o", shared, "-Wl,--whole-archive", archive, "-Wl,--no-whole-archive"])
    return shared


class Lent:
    """A workspace for these pools and a file of so many bytes, with more lent behind each part."""

    def __init__(self, library, pools, file_length, fill=0xA5):
        self.pools, self.file_length = pools, file_length
        self.used = library.words(pools)
        self.words = (ctypes.c_uint32 * (self.used + GUARD))()
        self.bytes = (ctypes.c_uint8 * (file_length + GUARD))()
        ctypes.memset(self.words, fill, ctypes.sizeof(self.words))
        ctypes.memset(self.bytes, fill, ctypes.sizeof(self.bytes))

    def seen(self):
        """All words and all bytes, as two byte strings."""
        return bytes(self.words), bytes(self.bytes)

    def image(self):
        """The used part."""
        words, held = self.seen()
        return words[:4 * self.used], held[:self.file_length]

    def put(self, seen):
        ctypes.memmove(self.words, seen[0], len(seen[0]))
        ctypes.memmove(self.bytes, seen[1], len(seen[1]))


class Library:
    def __init__(self, path):
        self.c = ctypes.CDLL(path)
        os.remove(path)
        u32, size, pointer = ctypes.c_uint32, ctypes.c_size_t, ctypes.c_void_p
        pools, lent, part = [u32] * 3, [pointer, size] * 2, [pointer, size]
        self.c.ivy_words.argtypes, self.c.ivy_words.restype = pools, ctypes.c_uint64
        for name, more in (("begin", lent + part), ("slice", [u32] + lent), ("finish", lent + part),
                           ("optimize", lent + part + part)):
            call = getattr(self.c, "ivy_" + name)
            call.argtypes, call.restype = pools + more, Answer

    def words(self, pools):
        return self.c.ivy_words(*pools)

    # The lengths that are handed over are those lent, or what the caller says.

    def begin(self, lent, data, **said):
        return self.called("begin", lent, said, data=data)

    def slice(self, lent, steps, **said):
        answer = self.called("slice", lent, said, steps=steps)
        if answer[0] == 0 and answer[1] > steps:
            raise Different("slice of %d deducts %d" % (steps, answer[1]))
        return answer

    def finish(self, lent, out, **said):
        return self.called("finish", lent, said, out=out)

    def optimize(self, lent, data, out, **said):
        return self.called("optimize", lent, said, data=data, out=out)

    def called(self, name, lent, said, data=None, steps=None, out=None):
        """(refusal, value), after the look at all that was lent."""
        before = lent.seen()
        n_words = said.get("n_words", lent.used + GUARD)
        n_bytes = said.get("n_bytes", lent.file_length + GUARD)
        arguments = list(said.get("pools", lent.pools))
        if steps is not None:
            arguments.append(steps)
        arguments += [ctypes.addressof(lent.words), n_words, ctypes.addressof(lent.bytes), n_bytes]
        if data is not None:
            file = ctypes.create_string_buffer(data, len(data) + 1)
            arguments += [ctypes.addressof(file), len(data)]
        if out is not None:
            arguments += [ctypes.addressof(out.room), out.length]
        answer = getattr(self.c, "ivy_" + name)(*arguments)
        if data is not None and file.raw[:len(data)] != data:
            raise Different("%s changes the file" % name)
        self.look(name, lent, before, lent.seen(), answer)
        if out is not None:
            out.look(name, answer)
        return answer.refusal, answer.value

    def look(self, name, lent, before, after, answer):
        leaves = LEAVES[name].get(answer.refusal)
        if leaves is None:
            raise Different("%s refused by %d" % (name, answer.refusal))
        if answer.refusal and answer.value:
            raise Different("%s refused by %d with value %d" % (name, answer.refusal, answer.value))
        used = 4 * lent.used, lent.file_length
        for part, x, y, n in zip(("words", "bytes"), before, after, used):
            if x[n:] != y[n:]:
                raise Different("%s changes %s past the used part" % (name, part))
            if leaves == UNCHANGED and x != y:
                raise Different("%s refused by %d changes the %s" % (name, answer.refusal, part))
            if leaves == ZEROS and y[:n].count(0) != n:
                raise Different("%s answered %d leaves %s that are not 0" % (name, answer.refusal, part))


class Output:
    """Room for a result, with a pattern in it that shows what was written."""

    MOST = 1 << 20
    PATTERN = b"\x5a" * (MOST + GUARD)

    def __init__(self):
        self.room = (ctypes.c_uint8 * (self.MOST + GUARD))()
        self.clear(self.MOST)

    def clear(self, length):
        """The room is as long as this from now on."""
        self.length = length
        ctypes.memmove(self.room, self.PATTERN, length + GUARD)
        return self

    def look(self, name, answer):
        n = 0 if answer.refusal else answer.value
        if n > self.length:
            raise Different("%s answers length %d in room of %d" % (name, n, self.length))
        now = ctypes.string_at(self.room, self.length + GUARD)
        if now[n:] != self.PATTERN[n:self.length + GUARD]:
            raise Different("%s answered %d and changes output past %d" % (name, answer.refusal, n))
        self.result = now[:n]
