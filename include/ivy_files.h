/* Net files made into net files: pruned, turned from trees into flat nets and back, their links resolved.
 * docs/FORMAT.md says what a net file is, docs/REFUSALS.md what the numbers mean.
 *
 * The caller lends everything that a call works with. No function takes memory from the heap or keeps state, so several
 * threads may call at once, each with a scratch and an output of its own. Every call ends, whatever the file and the scratch
 * hold; it needs 400 KB of stack. A pointer to nothing (length 0) may be any pointer but a null one.
 *
 * The file is read and never written. The output must not overlap it: the result of one call is the file of the next, in
 * another piece of memory.
 *
 * The scratch, words that the four conversions need and pruning does not: at least IVY_SCRATCH_WORDS, whatever the file. It
 * may hold anything, and no answer depends on what it holds. A call uses so many words and no more; what lies past them is
 * neither read nor changed.
 *
 * The output: as many bytes as the result has. What lies past the result is unchanged.
 *
 * A call that is refused gives the number and writes no output. After 1 to 8 the scratch is as it was; after 15, 17, 18 and
 * after a call that succeeded the words that the call uses are all zeros.
 */
#ifndef IVY_FILES_H
#define IVY_FILES_H

#include <stddef.h>
#include <stdint.h>

#ifdef __cplusplus
extern "C" {
#endif

/* What a call answers: refusal 0 where it succeeded, and then the result's length in bytes; else the refusal's number, and
 * length 0. */
typedef struct {
    uint32_t refusal;
    uint64_t length;
} ivy_converted;

/* The length of the scratch, in words. */
#define IVY_SCRATCH_WORDS 262144u

/* A flat file with the nets that are reached from the entries, each a name's number, and no other net; with no entries all
 * stay. Everything else stays as it is. Refusals: 2 to 8, 5 for an entry that is not below the name count, 15. */
ivy_converted ivy_prune(const uint8_t *file, size_t n_file, const uint32_t *entries, size_t n_entries,
                        uint8_t *out, size_t n_out);

/* A flat file from a tree file. Refusals: 1 to 8, 18, 15. */
ivy_converted ivy_flat_from_tree(const uint8_t *file, size_t n_file, uint32_t *scratch, size_t n_scratch,
                                 uint8_t *out, size_t n_out);

/* A tree file from a flat file. Refusals: 1 to 8, 15. */
ivy_converted ivy_tree_from_flat(const uint8_t *file, size_t n_file, uint32_t *scratch, size_t n_scratch,
                                 uint8_t *out, size_t n_out);

/* A flat file with its links resolved: each wire of a pair takes the smaller number; pairs that occur nowhere stay.
 * Refusals: 1 to 8, 15. */
ivy_converted ivy_resolve_flat(const uint8_t *file, size_t n_file, uint32_t *scratch, size_t n_scratch,
                               uint8_t *out, size_t n_out);

/* A tree file with its links resolved: a tree that hangs on a wire moves to where that wire occurs. A link of two wires is
 * dropped, and so this is the one result that may itself be refused, by 7 (docs/DIFFERENCES.md has the smallest file).
 * Refusals: 1 to 8, 17, 15. */
ivy_converted ivy_resolve_tree(const uint8_t *file, size_t n_file, uint32_t *scratch, size_t n_scratch,
                               uint8_t *out, size_t n_out);

#ifdef __cplusplus
}
#endif

#endif
