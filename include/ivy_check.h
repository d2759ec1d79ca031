/* Whether a net file is accepted. docs/FORMAT.md says what a net file is, docs/REFUSALS.md what the numbers mean.
 *
 * Each function takes the bytes of a whole file and their number. It answers 0 where the file is accepted, else the
 * number by which it is refused, 2 to 8. It asks nothing of the bytes, reads no other, and writes none. It takes no
 * memory from the heap and keeps no state, so several threads may call it at once; it needs 300 KB of stack.
 * Where length is 0, file may be any pointer but a null one.
 */
#ifndef IVY_CHECK_H
#define IVY_CHECK_H

#include <stddef.h>
#include <stdint.h>

#ifdef __cplusplus
extern "C" {
#endif

/* A flat file: version 1. */
uint32_t ivy_check_flat(const uint8_t *file, size_t length);

/* A tree file: version 65. */
uint32_t ivy_check_tree(const uint8_t *file, size_t length);

#ifdef __cplusplus
}
#endif

#endif
