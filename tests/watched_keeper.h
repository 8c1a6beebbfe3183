/* The keeper, and someone who watches what the terminal asks of it: the calls are wrapped (the linker's --wrap), each is looked at, and
 * another answer can be put in the place of the true one.
 *
 * Every start, every seed, every key and every message number of all devices and lives is kept and compared. On the board of bad_board.h two
 * keepers differ by their start bytes and by the seeds that the terminal fed, and by nothing else: a start or a seed that comes twice shows
 * as a key that comes twice. */
#ifndef WATCHED_KEEPER_H
#define WATCHED_KEEPER_H

#include <stdio.h>
#include <stdlib.h>
#include <string.h>

#include "../examples/terminal/store.h"
#include "bad_board.h"
#include "groups.h"

/* What was seen so far, over all devices and lives. A thing has its kind and up to 64 bytes. */

enum thing { NOTHING, KEY, START, DRAWN, CREDITED, NUMBER };
struct seen {
    enum thing kind;
    uint8_t bytes[64];
};
enum { MOST_SEEN = 1 << 19 };
static struct seen seen[MOST_SEEN];
static unsigned count_seen;

/* Its place, or the free place where it would go. */
static struct seen *place_of(enum thing kind, const uint8_t *bytes, size_t len) {
    uint64_t sum = (uint64_t)kind;
    uint8_t whole[64] = {0};
    memcpy(whole, bytes, len);
    for (size_t i = 0; i < sizeof whole; i++) sum = (sum ^ whole[i]) * 0x100000001b3u;
    struct seen *s = seen + (sum ^ sum >> 32) % MOST_SEEN;
    while (s->kind != NOTHING && (s->kind != kind || memcmp(s->bytes, whole, sizeof whole) != 0))
        if (++s == seen + MOST_SEEN) s = seen;
    return s;
}

static bool was_seen(enum thing kind, const uint8_t *bytes, size_t len) {
    return place_of(kind, bytes, len)->kind == kind;
}

/* Keeps a thing; false where it was seen before. */
static bool is_new(enum thing kind, const uint8_t *bytes, size_t len) {
    struct seen *s = place_of(kind, bytes, len);
    if (s->kind == kind) return false;
    if (++count_seen > MOST_SEEN / 2) {
        puts("FAILED: more was seen than there is room for");
        exit(1);
    }
    s->kind = kind;
    memcpy(s->bytes, bytes, len);
    return true;
}

/* What the keeper was asked for. */
static unsigned makes, credits;
static bool truly_seeded;                          /* the keeper there is was seen to seed */
static uint8_t lasting_bytes[TERMINAL_KEY_LENGTH]; /* what its blocking reads delivered since the last lasting key */
static size_t lasting_length;

/* The keeper's calls, on their way from the terminal. An interrupt may come in the middle of any of them. */

struct nk_answer __real_nk_make(struct nk_keeper *k, const uint8_t *start, size_t len);
struct nk_answer __real_nk_event(struct nk_keeper *k, uint32_t device, uint32_t now, uint64_t stamp, uint32_t value);
struct nk_answer __real_nk_interrupt(struct nk_keeper *k, uint32_t now, uint32_t number, uint64_t stamp, uint64_t address);
struct nk_answer __real_nk_write(struct nk_keeper *k, const uint8_t *bytes, size_t len);
struct nk_answer __real_nk_seed(struct nk_keeper *k, uint32_t now, const uint8_t *bytes, size_t len, uint32_t credit);
struct nk_answer __real_nk_read(struct nk_keeper *k, uint32_t now, uint8_t *out, size_t len);
struct nk_answer __real_nk_blocking_read(struct nk_keeper *k, uint8_t *out, size_t len);
struct nk_issued __real_nk_issue(struct nk_keeper *k, struct nk_desk *desk, uint32_t now, const uint8_t *field, size_t len);

enum call { MAKE, EVENT, INTERRUPT, WRITE, SEED, READ, BLOCKING_READ, ISSUE, CALLS };
static const char *const call_names[CALLS] = {"make", "event", "interrupt", "write", "seed", "read", "blocking read", "issue"};

/* An answer in the place of the true one, for one kind of call; the keeper is not called then. */
static bool pretends;
static enum call pretended_call;
static uint32_t pretended_number;

static uint32_t interrupts_sent, interrupts_come; /* each has its number in the order of sending */
static bool interrupts_break_in;

/* What each keeper hears is the same, so what waits for the keeper before it goes. */
static void begin_anew(void) {
    ticks = script = interrupts_sent = interrupts_come = 0;
    atomic_store(&terminal.interrupts.taken, atomic_load(&terminal.interrupts.put));
}

static bool pretended(enum call call, struct nk_answer *a) {
    /* the handling of one interrupt must not bring the next one, or they never end */
    bool breaks_in = interrupts_break_in && (call != INTERRUPT || interrupts_sent % 4 == 0);
    if (breaks_in) terminal_interrupt(&terminal, interrupts_sent++, 0x08000000u + script);
    if (!pretends || call != pretended_call) return false;
    struct nk_answer other = {pretended_number, 0, 0, 0, 0};
    *a = other;
    return true;
}

static struct nk_answer noted(enum call call, struct nk_answer a) {
    if (a.number == NK_OUT_OF_RANGE || a.number == NK_ALL_REPEATED) may_make = true;
    if (a.compressions > 0 && call != BLOCKING_READ && call != READ) truly_seeded = true;
    return a;
}

struct nk_answer __wrap_nk_make(struct nk_keeper *k, const uint8_t *start, size_t len) {
    struct nk_answer a;
    check(may_make, "a keeper is made anew, and nothing is wrong with the one there is");
    check(len == NK_START_LENGTH && is_new(START, start, len), "start bytes that were used before");
    may_make = truly_seeded = false;
    lasting_length = 0;
    makes++;
    begin_anew();
    return noted(MAKE, pretended(MAKE, &a) ? a : __real_nk_make(k, start, len));
}

struct nk_answer __wrap_nk_event(struct nk_keeper *k, uint32_t device, uint32_t now, uint64_t stamp, uint32_t value) {
    struct nk_answer a;
    return noted(EVENT, pretended(EVENT, &a) ? a : __real_nk_event(k, device, now, stamp, value));
}

struct nk_answer __wrap_nk_interrupt(struct nk_keeper *k, uint32_t now, uint32_t number, uint64_t stamp, uint64_t address) {
    struct nk_answer a;
    check(number >= interrupts_come && number < interrupts_sent, "interrupt %u comes twice, out of order, or from nowhere", number);
    interrupts_come = number + 1;
    return noted(INTERRUPT, pretended(INTERRUPT, &a) ? a : __real_nk_interrupt(k, now, number, stamp, address));
}

struct nk_answer __wrap_nk_write(struct nk_keeper *k, const uint8_t *bytes, size_t len) {
    struct nk_answer a;
    return noted(WRITE, pretended(WRITE, &a) ? a : __real_nk_write(k, bytes, len));
}

/* Whether some part of the bytes is in the device's cells. */
static bool is_stored(const uint8_t *bytes, size_t len) {
    enum { PART = 8 };
    const uint8_t *from = here->cells[0];
    for (size_t i = 0; i + PART <= len; i += PART)
        for (size_t j = 0; j + PART <= sizeof here->cells; j++)
            if (memcmp(bytes + i, from + j, PART) == 0) return true;
    return false;
}

struct nk_answer __wrap_nk_seed(struct nk_keeper *k, uint32_t now, const uint8_t *bytes, size_t len, uint32_t credit) {
    struct nk_answer a;
    if (credit > 0) {
        check(len == STORE_SEED_LENGTH && was_seen(DRAWN, bytes, len), "a seed is credited that no keeper ever left");
        check(is_new(CREDITED, bytes, len), "a seed is credited twice");
        check(!is_stored(bytes, len), "a seed is credited while it is still stored");
        credits++;
    }
    return noted(SEED, pretended(SEED, &a) ? a : __real_nk_seed(k, now, bytes, len, credit));
}

struct nk_answer __wrap_nk_read(struct nk_keeper *k, uint32_t now, uint8_t *out, size_t len) {
    struct nk_answer a;
    if (!pretended(READ, &a)) a = __real_nk_read(k, now, out, len);
    check(a.number != NK_DONE || truly_seeded, "bytes of a keeper that was never seeded");
    if (a.number == NK_DONE && len == STORE_SEED_LENGTH) check(is_new(DRAWN, out, len), "a seed is drawn twice");
    return noted(READ, a);
}

struct nk_answer __wrap_nk_blocking_read(struct nk_keeper *k, uint8_t *out, size_t len) {
    struct nk_answer a;
    if (!pretended(BLOCKING_READ, &a)) a = __real_nk_blocking_read(k, out, len);
    if (check(lasting_length + a.delivered <= TERMINAL_KEY_LENGTH, "more blocking bytes than a key has"))
        memcpy(lasting_bytes + lasting_length, out, a.delivered);
    lasting_length += a.delivered;
    return noted(BLOCKING_READ, a);
}

/* A generator in the place of the one that there is, at the next issue: the record goes back to what it was, in the middle of a call, where
 * no seal shows it. */
static const uint32_t *older_generator;

struct nk_issued __wrap_nk_issue(struct nk_keeper *k, struct nk_desk *desk, uint32_t now, const uint8_t *field, size_t len) {
    struct nk_issued i = {{0, 0, 0, 0, 0}, {0}};
    check(desk == &terminal.desk && len == 1 && (field[0] == NK_DRILL || field[0] == NK_LIVE), "a number at another desk, or of no class");
    if (older_generator) memcpy(k->generator, older_generator, sizeof k->generator);
    older_generator = NULL;
    if (!pretended(ISSUE, &i.answer)) i = __real_nk_issue(k, desk, now, field, len);
    check(i.answer.number != NK_DONE || truly_seeded || pretends, "a number of a keeper that was never seeded");
    noted(ISSUE, i.answer);
    return i;
}

#endif
