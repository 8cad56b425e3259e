/* The guard for a member's own key, as a library: `.ci/build guard` writes target/staticlib/libguard.a.
 *
 * Whoever keeps a key keeps a record for it, and puts the heights of each vote to the guard before it signs. The
 * vote may be signed where the answer is 0. docs/GUARD.md says when to write the record to disk. */
#ifndef FFW_GUARD_H
#define FFW_GUARD_H

#include <stdint.h>

#ifdef __cplusplus
extern "C" {
#endif

/* A checkpoint's height in the tree. */
struct ffw_height {
    uint32_t value;
};

/* The heights of the vote that was signed last; used is 0 until one was signed, and then 1. Any 12 bytes are a record:
 * whatever is not 0 in used counts as 1. */
struct ffw_guard {
    struct ffw_height source;
    struct ffw_height target;
    uint32_t used;
};

/* A record that has signed nothing. */
struct ffw_guard ffw_guard_fresh(void);

/* A vote of these heights. 0 where it may be signed, and the record then has its heights; else the record is as it was,
 * and the answer is the first of these that applies:
 *   65  the source's height is not below the target's
 *   66  the target's height is not above that of the vote signed last
 *   67  the source's height is below that of the vote signed last
 * A record that has signed nothing meets 65 only. The pointer is to a record, not null and aligned as its type, in
 * memory that may be written and that nobody else reads or writes during the call. No other byte is touched. */
uint64_t ffw_guard_sign(struct ffw_guard *guard, struct ffw_height source, struct ffw_height target);

#ifdef __cplusplus
}
#endif

#endif
