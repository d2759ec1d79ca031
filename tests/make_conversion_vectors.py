#!/usr/bin/env python3
"""Makes the files that the program replay_conversions gives to the conversions and to pruning, and the results that it expects.

  python3 tests/make_conversion_vectors.py ORACLE            write crates/replay_conversions/stdin and stdout
  python3 tests/make_conversion_vectors.py ORACLE --list     print every vector: index, call, refusal, bytes, name
  python3 tests/make_conversion_vectors.py ORACLE --show N   print the bytes of vector N in hexadecimal

ORACLE is the folder that holds model.py, gen.py and the Rust original (rust/), which is built in a copy. The list is fixed:
the same oracle gives the same bytes.

In the stream, for each vector, numbers big-endian: u8 call (1 to_flat, 2 to_tree, 3 resolve_links of flat nets, 4 of tree nets,
5 prune); u8 refusal expected, 0 for a result; u32 length of the file; u32 room for the output; u32 length of the expected
result, 0 on refusal; u16 count of entries; the entries, u16 each; the file; the result.
"""

import sys

import vectors


def collected(oracle):
    from conversion_vectors.collection import Collection
    from conversion_vectors.groups import GROUPS
    return vectors.by_original(Collection, GROUPS, oracle)


if __name__ == "__main__":
    vectors.main(__doc__, sys.argv[1:], "replay_conversions", collected)
