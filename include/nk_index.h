/* A summary beside a journal, as C calls it: the index of a journal that stands in a room of 61,440 bytes. docs/HEADER.md says what holds
 * each sentence. These calls need no keeper, and stand in an archive of their own, that of the crate index_c.
 *
 * The journal is the room's first `len` bytes, of version 1 or 2; what is appended to it is read in its version. Its index has the byte
 * places of records 0, 64, 128 and so on, counted from 0, how many records there are of kinds 1 to 6, and the sum of the lengths that reads
 * ask for (kinds 5 and 6), whether they are answered or refused. Places that are not used are 0; an index that has another number there is
 * not the journal's.
 *
 * REFUSALS. nk_append and nk_look refuse, in this order, and then room, length, index and both rooms of a look-up are as they were:
 *   - a journal that does not end with 0, with the number that it ends with (3, 8 to 12; a `len` above 61,440 is 12),
 *   - an index that is not the one worked out afresh from it, with NK_INDEX_DIFFERS,
 *   - nk_append: a longer journal that would not end with 0, with its number (12 where it would not fit, else 3, 10 or 11),
 *   - nk_look: more than 64 record numbers, with 3.
 *
 * MEMORY. A struct nk_index is a value, passed and answered whole. No pointer may be null, not even one that comes with a length of 0; a
 * pointer with a length stands for so many elements, and all of them must be the caller's. What is lent must not overlap. Nothing is kept
 * once a call has returned. A journal holds a keeper's start bytes and what was fed to it: it is secret, and so are its copies. */
#ifndef NK_INDEX_H
#define NK_INDEX_H

#include <stddef.h>
#include <stdint.h>

#ifdef __cplusplus
#define NK_INDEX_HOLDS(fact) static_assert(fact, #fact)
extern "C" {
#else
#define NK_INDEX_HOLDS(fact) _Static_assert(fact, #fact)
#endif

enum {
    NK_ROOM = 61440,       /* the bytes of a room */
    NK_PLACES = 138,       /* the most places of an index */
    NK_LOOK_MOST = 64,     /* the most record numbers of one nk_look */
    NK_INDEX_DIFFERS = 16, /* the index is not the journal's */
    NK_NO_SUCH_RECORD = 18 /* past the last record */
};

struct nk_index {
    uint32_t places[NK_PLACES];
    uint32_t kinds[6];
    uint32_t reads;
};

/* `number` is what the journal ends with; where it is not 0, the index is all 0. */
struct nk_fresh {
    uint32_t number;
    struct nk_index index;
};

/* `number` is 0, and `len` and `index` are the longer journal's; or the number that refused it, and both are as they were given. */
struct nk_appended {
    uint32_t number;
    size_t len;
    struct nk_index index;
};

/* The archive is for 64 bits. */
NK_INDEX_HOLDS(sizeof(size_t) == 8);
NK_INDEX_HOLDS(sizeof(void *) == 8);
NK_INDEX_HOLDS(sizeof(struct nk_index) == 580);
NK_INDEX_HOLDS(offsetof(struct nk_index, kinds) == 552);
NK_INDEX_HOLDS(offsetof(struct nk_index, reads) == 576);
NK_INDEX_HOLDS(sizeof(struct nk_fresh) == 584);
NK_INDEX_HOLDS(offsetof(struct nk_appended, index) == 16);
NK_INDEX_HOLDS(sizeof(struct nk_appended) == 600);

/* The index of a journal, worked out afresh. */
struct nk_fresh nk_fresh_index(const uint8_t room[NK_ROOM], size_t len);

/* Appends bytes, which must be whole records, to a journal, and brings its index along. It goes over the journal and over the bytes once.
 * What the room holds behind the longer journal stays. */
struct nk_appended nk_append(uint8_t room[NK_ROOM], size_t len, struct nk_index index, const uint8_t *more, size_t more_len);

/* Looks records up by their numbers: answers[i] is 0 and places[i] the byte place of record numbers[i], or NK_NO_SUCH_RECORD and 0 past the
 * last record. Elements behind the `count` first stay. It goes over the journal once, for the test, and over at most 63 records for each
 * number. */
uint32_t nk_look(const uint8_t room[NK_ROOM], size_t len, struct nk_index index, const uint32_t *numbers, size_t count, uint32_t answers[NK_LOOK_MOST],
    uint32_t places[NK_LOOK_MOST]);

#ifdef __cplusplus
}
#endif

#endif
