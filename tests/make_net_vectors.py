#!/usr/bin/env python3
"""Makes the files that the program replay_nets gives to the optimiser, and the results that it expects.

  python3 tests/make_net_vectors.py ORACLE            write crates/replay_nets/stdin and stdout
  python3 tests/make_net_vectors.py ORACLE --list     print every vector: index, refusal, steps, pools, bytes, name
  python3 tests/make_net_vectors.py ORACLE --show N   print the bytes of vector N in hexadecimal

ORACLE is the folder that holds model.py, gen.py and the Rust original (rust/), which is built in a copy. The list is fixed:
the same oracle gives the same bytes.

In the stream, for each vector, numbers big-endian: u32 length of the file; u16 nodes, u16 entries, u16 waits, the pools; u8
1 where the run is cut into slices too, else 0; u8 refusal expected, 0 for a result; u32 steps that the run deducts, up to
its refusal if it has one; u32 room for the output; u32 length of the expected result, 0 on refusal; the file; the result.
"""

import sys

import vectors


def collected(oracle):
    from net_vectors.collection import Collection
    from net_vectors.groups import GROUPS
    return vectors.by_original(Collection, GROUPS, oracle)


if __name__ == "__main__":
    vectors.main(__doc__, sys.argv[1:], "replay_nets", collected)
