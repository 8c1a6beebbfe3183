/* Journals of version 1 written as version 2, as C calls it. docs/HEADER.md says what holds each sentence. The call needs no keeper, and stands
 * in an archive of its own, that of the crate convert_c.
 *
 * Version 2 has two bytes for the device of an event, where version 1 has one; all else is the same. So the outcome is one byte longer for each
 * event. It has the same records, and its replay has the same transcript and leaves the same keeper.
 *
 * REFUSALS, in this order; then nothing is written:
 *   - a journal that does not end with 0, with the number that it ends with (3, 8 to 12),
 *   - one that is of version 2 already, with NK_VERSION_NOT_1,
 *   - an event of a device over 15, with NK_NO_DEVICE_OF_VERSION_1: its replay answers 4, and that of the outcome would not,
 *   - an outcome over 61,440 bytes, with NK_OUTCOME_TOO_LARGE,
 *   - a room shorter than the outcome, with NK_ROOM_TOO_SHORT.
 *
 * MEMORY. No pointer may be null, not even one that comes with a length of 0; a pointer with a length stands for so many bytes, and all of them
 * must be the caller's. Journal and room must not overlap. Nothing is kept once the call has returned. A journal holds a keeper's start bytes
 * and what was fed to it: it is secret, and so is what is written from it. */
#ifndef NK_CONVERT_H
#define NK_CONVERT_H

#include <stddef.h>
#include <stdint.h>

#ifdef __cplusplus
#define NK_CONVERT_HOLDS(fact) static_assert(fact, #fact)
extern "C" {
#else
#define NK_CONVERT_HOLDS(fact) _Static_assert(fact, #fact)
#endif

enum {
    NK_NO_DEVICE_OF_VERSION_1 = 4, /* an event of a device over 15 */
    NK_VERSION_NOT_1 = 9,          /* a journal that is not of version 1 */
    NK_OUTCOME_TOO_LARGE = 12,     /* the outcome would have more than 61,440 bytes */
    NK_ROOM_TOO_SHORT = 19         /* the outcome does not fit into the room */
};

/* `number` is 0 and `len` how many bytes were written; or the number that refused it, and `len` is 0. */
struct nk_converted {
    uint32_t number;
    size_t len;
};

/* The archive is for 64 bits. */
NK_CONVERT_HOLDS(sizeof(size_t) == 8);
NK_CONVERT_HOLDS(sizeof(void *) == 8);
NK_CONVERT_HOLDS(sizeof(struct nk_converted) == 16);
NK_CONVERT_HOLDS(offsetof(struct nk_converted, len) == 8);
#undef NK_CONVERT_HOLDS

/* Writes a journal of version 1 as one of version 2, at the start of the room; what the room holds behind it stays. */
struct nk_converted nk_convert(const uint8_t *journal, size_t len, uint8_t *room, size_t room_len);

#ifdef __cplusplus
}
#endif

#endif
