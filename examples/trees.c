/* Optimises a tree file: it is made flat, optimised in one call, made a tree file again, and its links are resolved.
 *
 *     (cd crates/ivy_c && rt lib) && (cd crates/ivy_files_c && rt lib) && mkdir -p out
 *     cc -O2 -Iinclude -o out/trees examples/trees.c crates/ivy_c/out/libivy_c.a crates/ivy_files_c/out/libivy_files_c.a
 *     out/trees examples/p1-tree.net result.net
 */
#include <stdio.h>
#include <stdlib.h>

#include "ivy.h"
#include "ivy_files.h"

enum { NODES = 256, ENTRIES = 1024, WAITS = 64, MOST = 1 << 20 };

/* Two pieces of memory: each call reads one and writes the other. */
static uint8_t one[MOST], other[MOST], bytes[MOST];
static uint32_t scratch[IVY_SCRATCH_WORDS];

/* Says what a call answered. The length of its result, 0 where it was refused. */
static size_t told(const char *call, uint32_t refusal, size_t length)
{
    if (refusal)
        printf("%s: refused %u\n", call, (unsigned)refusal);
    else
        printf("%s: %zu bytes\n", call, length);
    return length;
}

/* The file of this length in `one` goes to `other` and back, twice. */
static size_t optimised(size_t length)
{
    ivy_converted made = ivy_flat_from_tree(one, length, scratch, IVY_SCRATCH_WORDS, other, MOST);
    if (!(length = told("flat", made.refusal, made.length)))
        return 0;

    size_t n_words = ivy_words(NODES, ENTRIES, WAITS);
    uint32_t *words = calloc(n_words, sizeof *words);
    if (!words)
        return 0;
    ivy_answer run = ivy_optimize(NODES, ENTRIES, WAITS, words, n_words, bytes, length, other, length, one, MOST);
    free(words);
    if (!(length = told("optimised", run.refusal, run.value)))
        return 0;

    made = ivy_tree_from_flat(one, length, scratch, IVY_SCRATCH_WORDS, other, MOST);
    if (!(length = told("tree", made.refusal, made.length)))
        return 0;
    made = ivy_resolve_tree(other, length, scratch, IVY_SCRATCH_WORDS, one, MOST);
    return told("resolved", made.refusal, made.length);
}

int main(int count, char **names)
{
    if (count != 3) {
        fprintf(stderr, "%s FILE RESULT\n", names[0]);
        return 2;
    }
    FILE *in = fopen(names[1], "rb");
    if (!in) {
        perror(names[1]);
        return 2;
    }
    size_t length = fread(one, 1, MOST, in);
    fclose(in);

    length = optimised(length);
    if (!length)
        return 1;
    FILE *result = fopen(names[2], "wb");
    if (!result || fwrite(one, 1, length, result) != length || fclose(result)) {
        perror(names[2]);
        return 2;
    }
    return 0;
}
