"""Runs items one by one in a child process with an alarm, so that a call that loops or breaks is a difference like any other."""

import mmap
import os
import pickle
import random
import signal
from collections import Counter

from comparing.library import Different

SECONDS = 30            # for one item; a run of 16,777,216 steps takes a few
BATCH = 2000
MOST_DIFFERENCES = 20
NOTE_ROOM = 1 << 24


class Difference:
    def __init__(self, part, index, what, case):
        self.part, self.index, self.what, self.case = part, index, what, case

    def text(self):
        lines = ["%s %d: %s" % (self.part, self.index, self.what)]
        lines += ["  %s %s" % (k, v.hex() if isinstance(v, bytes) else v) for k, v in self.case.items()]
        return "\n".join(lines)


class Case(dict):
    """What a reader needs to repeat an item, kept where the parent finds it if the child breaks."""

    def __init__(self, place, index):
        super().__init__()
        self.place, self.index = place, index
        self.keep()

    def __setitem__(self, key, value):
        super().__setitem__(key, value)
        self.keep()

    def keep(self):
        note = pickle.dumps((self.index, dict(self)))
        self.place[8:8 + len(note)] = note
        self.place[:8] = len(note).to_bytes(8, "big")


class Part:
    """A kind of items. `one(index, rng, case, counts)` compares one and raises `Different`; `start` and `stop` run once in
    each child."""

    name = ""

    def start(self):
        pass

    def stop(self):
        pass

    def one(self, index, rng, case, counts):
        raise NotImplementedError


def _items(part, items, seed, place):
    counts, differences = Counter(), []
    part.start()
    for index in items:
        case = Case(place, index)
        signal.alarm(SECONDS)
        try:
            part.one(index, random.Random("%s %s %d" % (seed, part.name, index)), case, counts)
        except Different as e:
            differences.append((part.name, index, str(e), dict(case)))
        except Exception as e:                    # of the tests themselves: shown, not hidden
            differences.append((part.name, index, "%s in the test: %s" % (type(e).__name__, e), dict(case)))
        counts["items"] += 1
        if len(differences) >= MOST_DIFFERENCES:
            break
    signal.alarm(0)
    part.stop()
    return counts, differences


def _in_child(part, items, seed, place):
    """What the child found, or None, and the signal that ended it."""
    read, write = os.pipe()
    child = os.fork()
    if child == 0:
        code = 1
        try:
            os.close(read)
            signal.signal(signal.SIGALRM, signal.SIG_DFL)
            found = pickle.dumps(_items(part, items, seed, place))
            with os.fdopen(write, "wb") as out:
                out.write(found)
            code = 0
        finally:
            os._exit(code)
    os.close(write)
    with os.fdopen(read, "rb") as results:
        found = results.read()
    _, status = os.waitpid(child, 0)
    return (pickle.loads(found) if status == 0 else None), os.WTERMSIG(status)


def run(part, items, seed, progress=lambda done: None):
    """(counts, differences) over all items."""
    counts, differences, items, at = Counter(), [], list(items), 0
    place, broken = mmap.mmap(-1, NOTE_ROOM), set()
    while at < len(items) and len(differences) < MOST_DIFFERENCES:
        end = min([at + BATCH] + [items.index(i) for i in broken if items.index(i) >= at])
        if end == at:
            at += 1
            continue
        found, number = _in_child(part, items[at:end], seed, place)
        if found is None:
            # the items before the broken one are done again, for what they count
            index, case = pickle.loads(place[8:8 + int.from_bytes(place[:8], "big")])
            broken.add(index)
            counts["items"] += 1
            what = "no answer after %d seconds" % SECONDS if number == signal.SIGALRM else "ended by signal %d" % number
            differences.append(Difference(part.name, index, what, case))
        else:
            counts.update(found[0])
            differences += [Difference(*d) for d in found[1]]
            at = end
        progress(at)
    return counts, differences[:MOST_DIFFERENCES]
