/* Optimises a net file in slices of one step, as a controller would between two telegrams.
 *
 *     (cd crates/ivy_c && rt lib) && mkdir -p out
 *     cc -O2 -Iinclude -o out/slices examples/slices.c crates/ivy_c/out/libivy_c.a
 *     out/slices examples/p1.net result.net
 */
#include <stdio.h>
#include <stdlib.h>

#include "ivy.h"

enum { NODES = 256, ENTRIES = 1024, WAITS = 64, MOST = 1 << 20 };

static uint8_t file[MOST], bytes[MOST], out[MOST];

static int refused(const char *call, ivy_answer answer)
{
    printf("%s: refused %u\n", call, (unsigned)answer.refusal);
    return 1;
}

int main(int count, char **names)
{
    if (count != 3) {
        fprintf(stderr, "%s FILE RESULT\n", names[0]);
        return 2;
    }
    FILE *in = fopen(names[1], "rb");
    if (!in) {
        perror(names[1]);
        return 2;
    }
    size_t length = fread(file, 1, MOST, in);
    fclose(in);

    size_t n_words = ivy_words(NODES, ENTRIES, WAITS);
    uint32_t *words = calloc(n_words, sizeof *words);
    if (!words)
        return 2;

    ivy_answer answer = ivy_begin(NODES, ENTRIES, WAITS, words, n_words, bytes, length, file, length);
    if (answer.refusal)
        return refused("begin", answer);
    unsigned steps = 0;
    for (;;) {
        /* Between two slices other work may be done, or the run be given up. */
        answer = ivy_slice(NODES, ENTRIES, WAITS, 1, words, n_words, bytes, length);
        if (answer.refusal)
            return refused("slice", answer);
        if (answer.value == 0)
            break; /* nothing is left to do, or the limit is spent */
        steps++;
    }
    answer = ivy_finish(NODES, ENTRIES, WAITS, words, n_words, bytes, length, out, MOST);
    if (answer.refusal)
        return refused("finish", answer);
    free(words);

    FILE *result = fopen(names[2], "wb");
    if (!result || fwrite(out, 1, answer.value, result) != answer.value || fclose(result)) {
        perror(names[2]);
        return 2;
    }
    printf("%u steps, %u bytes\n", steps, (unsigned)answer.value);
    return 0;
}
