/* The optimiser: a flat net file in, the file of its reduced nets out, in one call or in slices of a few steps each.
 * docs/FORMAT.md says what a net file is, docs/REFUSALS.md what the numbers mean.
 *
 * The caller lends everything that a call works with. No function takes memory from the heap or keeps state, so several
 * threads may call at once, each on a workspace of its own. Every call ends, whatever the workspace and the file hold. A
 * pointer to nothing (length 0) may be any pointer but a null one.
 *
 * The pools, three numbers that the caller chooses once for a run and names in each call of it:
 *     nodes    1 to 4,096     nodes that there is room for, one free node for each included net counted
 *     entries  1 to 16,384    entries that the lists of nodes of all nets have room for
 *     waits    0 to 4,096     waits that there is room for: a graft waits until the net that it names is reduced
 *
 * The workspace, two pieces of memory:
 *     words    at least ivy_words(nodes, entries, waits) words; a run uses so many and no more
 *     bytes    at least as many as the file has; a run uses so many and no more
 * Between calls the two are the run: they may be copied elsewhere and gone on with there. What lies past the used part is
 * neither read nor changed.
 *
 * A call that is refused gives the number and writes no output. After 1 to 8, 16, and 15 from ivy_finish the workspace is
 * as it was. After 9 to 14, after 15 from ivy_optimize, and after ivy_finish or ivy_optimize succeeded the used part of it
 * is all zeros, and any later call on it but ivy_begin and ivy_optimize is refused by 16.
 */
#ifndef IVY_H
#define IVY_H

#include <stddef.h>
#include <stdint.h>

#ifdef __cplusplus
extern "C" {
#endif

/* What a call answers: refusal 0 where it succeeded, and then its value; else the refusal's number, and value 0. */
typedef struct {
    uint32_t refusal;
    uint32_t value;
} ivy_answer;

/* As a number of steps or a limit: none. */
#define IVY_NONE 4294967295u

/* How many words a workspace for these pools has. */
uint64_t ivy_words(uint32_t nodes, uint32_t entries, uint32_t waits);

/* Checks the file and loads its included nets into the workspace. Value: 0. Refusals: 1 to 10. */
ivy_answer ivy_begin(uint32_t nodes, uint32_t entries, uint32_t waits,
                     uint32_t *words, size_t n_words, uint8_t *bytes, size_t n_bytes,
                     const uint8_t *file, size_t n_file);

/* Takes at most so many steps, 0 to 16,777,216 or IVY_NONE, and no more than the file's limit has left. Value: the number
 * of steps that it deducted, from both. Fewer than were asked for: nothing is left to do, or the limit is spent.
 * Refusals: 1, 16, 4, 9 to 14. */
ivy_answer ivy_slice(uint32_t nodes, uint32_t entries, uint32_t waits, uint32_t steps,
                     uint32_t *words, size_t n_words, uint8_t *bytes, size_t n_bytes);

/* Writes the resulting file, at any time after ivy_begin. Value: its length in bytes; the output past it is unchanged. The
 * limit in it is what is left of the file's. Refusals: 1, 16, 15. After 15 it may be called again with more room. */
ivy_answer ivy_finish(uint32_t nodes, uint32_t entries, uint32_t waits,
                      uint32_t *words, size_t n_words, uint8_t *bytes, size_t n_bytes,
                      uint8_t *out, size_t n_out);

/* ivy_begin, one ivy_slice of IVY_NONE, ivy_finish. Value: the result's length. Refusals: 1 to 15. */
ivy_answer ivy_optimize(uint32_t nodes, uint32_t entries, uint32_t waits,
                        uint32_t *words, size_t n_words, uint8_t *bytes, size_t n_bytes,
                        const uint8_t *file, size_t n_file, uint8_t *out, size_t n_out);

#ifdef __cplusplus
}
#endif

#endif
