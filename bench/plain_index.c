/* The index of a journal in plain C (plain_index.h). */
#include "plain_index.h"
#include "plain_journal.h"
#include <string.h>

enum { EVERY = 64 };

/* Adds the records from a position on to an index of *many records; the bytes stand `base` further on in the journal. */
static uint32_t add(uint32_t version, const uint8_t *j, size_t len, size_t at, size_t base, struct nk_index *index, uint32_t *many) {
    while (at < len) {
        size_t next;
        uint32_t number = journal_step(version, j, len, at, &next);
        if (number != 0) return number;
        if (*many % EVERY == 0) index->places[*many / EVERY] = (uint32_t)(base + at);
        index->kinds[j[at] - 1]++;
        if (j[at] >= JOURNAL_READ) index->reads += journal_two(j + at + 5);
        ++*many;
        at = next;
    }
    return 0;
}

struct nk_fresh plain_fresh_index(const uint8_t *room, size_t len) {
    struct nk_fresh fresh;
    uint32_t many = 0;
    memset(&fresh, 0, sizeof fresh);
    fresh.number = journal_header(room, len);
    if (fresh.number == 0) fresh.number = add(journal_version(room), room, len, JOURNAL_HEADER, 0, &fresh.index, &many);
    if (fresh.number != 0) memset(&fresh.index, 0, sizeof fresh.index);
    return fresh;
}

static uint32_t records(const struct nk_index *index) {
    uint32_t sum = 0;
    for (int i = 0; i < 6; i++) sum += index->kinds[i];
    return sum;
}

struct nk_appended plain_append(uint8_t *room, size_t len, const struct nk_index *index, const uint8_t *more, size_t more_len) {
    struct nk_appended done = {0, len, *index};
    struct nk_fresh fresh = plain_fresh_index(room, len);
    done.number = fresh.number;
    if (done.number == 0 && memcmp(&fresh.index, index, sizeof *index) != 0) done.number = NK_INDEX_DIFFERS;
    if (done.number == 0 && more_len > NK_ROOM - len) done.number = 12;
    if (done.number != 0) return done;
    uint32_t many = records(&fresh.index);
    done.number = add(journal_version(room), more, more_len, 0, len, &fresh.index, &many);
    if (done.number != 0) return done;
    memcpy(room + len, more, more_len);
    done.len = len + more_len;
    done.index = fresh.index;
    return done;
}

uint32_t plain_look(const uint8_t *room, size_t len, const struct nk_index *index, const uint32_t *numbers, size_t count, uint32_t *answers, uint32_t *places) {
    struct nk_fresh fresh = plain_fresh_index(room, len);
    if (fresh.number != 0) return fresh.number;
    if (memcmp(&fresh.index, index, sizeof *index) != 0) return NK_INDEX_DIFFERS;
    if (count > NK_LOOK_MOST) return 3;
    uint32_t many = records(index);
    for (size_t i = 0; i < count; i++) {
        if (numbers[i] >= many) {
            answers[i] = NK_NO_SUCH_RECORD;
            places[i] = 0;
            continue;
        }
        size_t at = index->places[numbers[i] / EVERY];
        for (uint32_t k = numbers[i] % EVERY; k > 0; k--) journal_step(journal_version(room), room, len, at, &at);
        answers[i] = 0;
        places[i] = (uint32_t)at;
    }
    return 0;
}

size_t plain_count(const uint8_t *j, size_t len, uint32_t number) {
    size_t at = JOURNAL_HEADER;
    while (at < len) {
        size_t next;
        if (journal_step(journal_version(j), j, len, at, &next) != 0) return 0;
        if (number-- == 0) return at;
        at = next;
    }
    return 0;
}
