#include "plain_convert.h"
#include "plain_journal.h"
#include <string.h>

enum { DEVICES_OF_VERSION_1 = 16, DEVICE = 5 }; /* where the device stands in an event */

static struct nk_converted refusal(uint32_t number) {
    struct nk_converted refused = {number, 0};
    return refused;
}

/* What one walk over the journal tells, as if it were good and of version 1. */
struct survey {
    uint32_t ending; /* the number that ends its replay */
    size_t events;
    int high_device;
};

static struct survey look_over(const uint8_t *j, size_t len) {
    struct survey s = {journal_header(j, len), 0, 0};
    if (s.ending != 0) return s;
    uint32_t version = journal_version(j);
    for (size_t at = JOURNAL_HEADER, next; at < len; at = next) {
        s.ending = journal_step(version, j, len, at, &next);
        if (s.ending != 0) return s;
        if (j[at] != JOURNAL_EVENT) continue;
        s.events++;
        s.high_device |= j[at + DEVICE] >= DEVICES_OF_VERSION_1;
    }
    return s;
}

/* Events get a byte of 0 behind their device, and all else is copied as it is. The room is long enough. */
static void write_longer(const uint8_t *j, size_t len, uint8_t *to) {
    enum { BEFORE = DEVICE + 1, BEHIND = 12 };
    memcpy(to, j, JOURNAL_HEADER);
    to[3] = 2;
    to += JOURNAL_HEADER;
    for (size_t at = JOURNAL_HEADER, next = len; at < len; at = next) {
        journal_step(1, j, len, at, &next);
        if (j[at] == JOURNAL_EVENT) {
            __builtin_memcpy(to, j + at, BEFORE); /* so short that a call would cost more than the moves */
            to[BEFORE] = 0;
            __builtin_memcpy(to + BEFORE + 1, j + at + BEFORE, BEHIND);
            to += BEFORE + 1 + BEHIND;
        } else {
            memcpy(to, j + at, next - at);
            to += next - at;
        }
    }
}

struct nk_converted plain_convert(const uint8_t *journal, size_t len, uint8_t *room, size_t room_len) {
    struct survey s = look_over(journal, len);
    if (s.ending != 0) return refusal(s.ending);
    if (journal_version(journal) != 1) return refusal(NK_VERSION_NOT_1);
    if (s.high_device) return refusal(NK_NO_DEVICE_OF_VERSION_1);
    if (len + s.events > JOURNAL_MOST) return refusal(NK_OUTCOME_TOO_LARGE);
    if (len + s.events > room_len) return refusal(NK_ROOM_TOO_SHORT);
    write_longer(journal, len, room);
    struct nk_converted done = {0, len + s.events};
    return done;
}
