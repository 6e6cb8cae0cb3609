/* Writing commit stores: the file that every function of linenhatch.h reads commits from, made of ids and bodies in any order.
 *
 * A store has the bodies end to end in the order of their ids; then an entry for each body, its id and the offset of its end; then where the
 * entries start and how many they are. Offsets and number are big-endian and have 4 bytes. docs/SPECIFICATION.md, section 1, has it in full.
 *
 * These two functions are plain C beside the proved library, and are not proved themselves. What they write is tested where it is used: every
 * opening tests the layout (4), and linenhatch_check_names each id (16). They allocate nothing, keep nothing between calls and may run in
 * several threads at once, each with its own commits and output.
 */
#ifndef LINENHATCH_STORE_H
#define LINENHATCH_STORE_H

#include <stddef.h>
#include <stdint.h>

#ifdef __cplusplus
extern "C" {
#endif

/* The most bytes that a store may have. */
#define LINENHATCH_MAX_STORE 16777216u

/* Results. 0, 2 and 20 mean what they mean in linenhatch.h; 102 is none of the library's. */
#define LINENHATCH_STORE_WRITTEN 0u
#define LINENHATCH_STORE_TOO_LARGE 2u     /* it would have over LINENHATCH_MAX_STORE bytes */
#define LINENHATCH_STORE_SHORT_OUTPUT 20u /* the output is shorter than the store */
#define LINENHATCH_STORE_TWO_BODIES 102u  /* one id is given with two different bodies */

/* One commit: its id, and its body, the bytes that `git cat-file commit ID` prints. Both stay the caller's, and are only read. */
typedef struct linenhatch_commit {
    const uint8_t *id;
    const void *body;
    size_t body_len;
} linenhatch_commit;

/* What is said of a store. */
typedef struct linenhatch_store_size {
    uint64_t bytes; /* how many it has, or would have where that is too many; 0 after 102 */
    size_t commits; /* how many are in it, one given several times counted once; 0 after 102 */
    size_t at;      /* after 102: where in commits, as they now stand, the first of two with one id is; else 0 */
} linenhatch_store_size;

/* How long the store of some commits is: 0 where it is said, else 102 or 2, tested in this order.
 *
 * width: of the ids, 32 for SHA-256, any other number for SHA-1 with 20 bytes. commits: in any order; they are put in the order of their ids,
 * and that is all that is altered. A commit that is given several times with the same body counts once. size: set down in every case. It takes
 * time in proportion to the bodies that are given several times, and to n log n for n commits. */
uint32_t linenhatch_store_length(uint32_t width, linenhatch_commit *commits, size_t count, linenhatch_store_size *size);

/* Writes the store of some commits: 0 where it stands at the start of output, else 102, 2 or 20, tested in this order.
 *
 * What is lent is that of linenhatch_store_length, and output: of at least the length that it gives, apart from the commits, ids and bodies. No
 * byte of output past the store's is altered, and after a refusal none at all. */
uint32_t linenhatch_write_store(
    uint32_t width, linenhatch_commit *commits, size_t count, uint8_t *output, size_t output_len, linenhatch_store_size *size);

#ifdef __cplusplus
}
#endif

#endif
