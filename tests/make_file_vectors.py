#!/usr/bin/env python3
"""Makes the files that the program replay_files gives to the checkers, and the answers it expects.

  python3 tests/make_file_vectors.py ORACLE            write crates/replay_files/stdin and stdout
  python3 tests/make_file_vectors.py ORACLE --list     print every vector: index, answer, bytes, name
  python3 tests/make_file_vectors.py ORACLE --show N   print the bytes of vector N in hexadecimal

ORACLE is the folder that holds model.py and gen.py. The list is fixed: the same oracle gives the same bytes.

In the stream, for each vector: u8 call (1 check_flat, 65 check_tree), u8 expected (0 accepted, else the number
it is refused by), u32 big-endian length, the bytes.
"""

import sys
from importlib import import_module

import vectors

# The groups in the order of document 01; each module says in its first line which sentence it is for.
GROUPS = ("known", "heads", "cuts", "ranges", "limits", "trees", "orders", "wiring", "free_path", "mixtures",
          "sample", "wrong_call")


def collected(oracle):
    from file_vectors.collection import Collection
    return Collection().grown_by((group, import_module("file_vectors." + group).all_vectors) for group in GROUPS)


if __name__ == "__main__":
    vectors.main(__doc__, sys.argv[1:], "replay_files", collected)
