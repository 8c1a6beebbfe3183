/* How a journal is read, in plain C and straight from the paper: what the plain index and the plain converter share. A journal of version 1
   has one byte for the device of an event, one of version 2 has two; all else is the same. */
#ifndef PLAIN_JOURNAL_H
#define PLAIN_JOURNAL_H

#include <stddef.h>
#include <stdint.h>

enum { JOURNAL_MOST = 61440, JOURNAL_HEADER = 53, JOURNAL_LENGTH_MOST = 4096 };
enum { JOURNAL_EVENT = 1, JOURNAL_WRITE = 3, JOURNAL_SEED = 4, JOURNAL_READ = 5, JOURNAL_KINDS = 6 };

static inline uint32_t journal_two(const uint8_t *p) {
    return p[0] | (uint32_t)p[1] << 8;
}

/* Of a journal whose header is good. */
static inline uint32_t journal_version(const uint8_t *j) {
    return journal_two(j + 3);
}

/* The number that the header ends the replay with, or 0. */
static inline uint32_t journal_header(const uint8_t *j, size_t len) {
    if (len > JOURNAL_MOST) return 12;
    if (len < 3 || j[0] != 'N' || j[1] != 'K' || j[2] != 'J') return 8;
    if (len < 5) return 10;
    if (journal_version(j) != 1 && journal_version(j) != 2) return 9;
    return len < JOURNAL_HEADER ? 10 : 0;
}

/* The kind and the fields of a record: so many bytes. */
static inline size_t journal_head(uint32_t version, uint8_t kind) {
    static const uint8_t heads[2][JOURNAL_KINDS + 1] = {{0, 18, 25, 7, 11, 7, 7}, {0, 19, 25, 7, 11, 7, 7}};
    return heads[version - 1][kind];
}

/* The number that the record at a position ends the replay with, or 0 and the position after it. */
static inline uint32_t journal_step(uint32_t version, const uint8_t *j, size_t len, size_t at, size_t *next) {
    uint8_t kind = j[at];
    if (kind < 1 || kind > JOURNAL_KINDS) return 11;
    size_t head = journal_head(version, kind);
    if (len - at < head) return 10;
    size_t end = at + head;
    if (kind == JOURNAL_WRITE || kind == JOURNAL_SEED) {
        uint32_t carried = journal_two(j + at + 5);
        if (carried > JOURNAL_LENGTH_MOST) return 3;
        if (len - end < carried) return 10;
        end += carried;
    }
    *next = end;
    return 0;
}

#endif
