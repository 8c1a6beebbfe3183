/* What of a pool stays on the dead stack of a call that extracts from one. From sixteen words in a row of SHA-1's message schedule the block can be
 * worked out, which is sixteen words of the pool; so after each call on a stack of its own every word of the schedules of the pools' blocks is looked
 * for there. Fails where more than eight of one schedule are found, or one of its first sixteen, which are words of the pool itself, in either order
 * of their bytes. Calls that leave sixteen words, and one word of the pool, on purpose have to be noticed.
 *
 * The last block that is hashed is the one at a pool's end. The hash that is mixed back goes to twenty words further down: so the block stands in the
 * record after the call or, of the blocking pool, which has no more than two blocks and is extracted from once, before it. */
#define _XOPEN_SOURCE 700
#include <stdint.h>
#include <stdio.h>

#include "../include/nk.h"
#include "own_stack.h"

enum { BLOCK = 16, SCHEDULE = 80, ALLOWED = 8 };

static struct nk_keeper keeper, before;
static struct nk_desk desk;
static struct nk_answer answer;
static uint8_t bytes[128];
static const uint8_t live = NK_LIVE;

static uint32_t turned(uint32_t x) { return x << 24 | (x & 0xff00) << 8 | (x >> 8 & 0xff00) | x >> 24; }

static void schedule(const uint32_t *block, uint32_t *w) {
    for (int t = 0; t < BLOCK; t++) w[t] = turned(block[t]);
    for (int t = BLOCK; t < SCHEDULE; t++) {
        uint32_t x = w[t - 3] ^ w[t - 8] ^ w[t - 14] ^ w[t - 16];
        w[t] = x << 1 | x >> 31;
    }
}

static int found(uint32_t word) {
    for (size_t i = 0; i + 4 <= sizeof own_stack; i += 4)
        if (memcmp(own_stack + i, &word, 4) == 0) return 1;
    return 0;
}

static int own; /* whether a word of a pool itself was found */

/* The most words of one schedule. */
static int left_of(const uint32_t *pool, int words) {
    int most = 0;
    for (int at = 0; at < words; at += BLOCK) {
        uint32_t w[SCHEDULE];
        int n = 0;
        schedule(pool + at, w);
        for (int t = 0; t < SCHEDULE; t++)
            if (found(w[t])) n++, own |= t < BLOCK;
        for (int t = 0; t < BLOCK; t++) own |= found(pool[at + t]);
        if (n > most) most = n;
    }
    return most;
}

static int left(void) {
    const struct nk_keeper *moments[2] = {&before, &keeper};
    int most = own = 0;
    for (int i = 0; i < 2; i++) {
        int input = left_of(moments[i]->input, NK_INPUT_WORDS), blocking = left_of(moments[i]->blocking, NK_BLOCKING_WORDS);
        if (input > most) most = input;
        if (blocking > most) most = blocking;
    }
    return most;
}

static void unseeded(void) { keeper.ledger.seeding.mark = 0; }
static void emptied(void) {
    keeper.ledger.blocking.count = 0;
    keeper.ledger.blocking.spot.at = BLOCK;
}
static void as_it_is(void) {}

static void seed(void) { answer = nk_seed(&keeper, 9000, bytes, 64, 512); }
static void event(void) { answer = nk_event(&keeper, 0, 9000, 1, 2); }
static void interrupt(void) { answer = nk_interrupt(&keeper, 9000, 1, 2, 3); }
static void read_97(void) { answer = nk_read(&keeper, 900000, bytes, 97); }
static void read_1(void) { answer = nk_read(&keeper, 900000, bytes, 1); }
static void blocking_10(void) { answer = nk_blocking_read(&keeper, bytes, 10); }
static void issue(void) { answer = nk_issue(&keeper, &desk, 900000, &live, 1).answer; }

static void leave_sixteen(void) {
    volatile uint32_t kept[BLOCK];
    uint32_t w[SCHEDULE];
    schedule(keeper.input + NK_INPUT_WORDS - BLOCK, w);
    for (int i = 0; i < BLOCK; i++) kept[i] = w[SCHEDULE - BLOCK + i];
    for (int i = 0; i < SCHEDULE; i++) ((volatile uint32_t *)w)[i] = 0;
    answer.number = NK_DONE;
    answer.compressions = kept[0] | 1;
}

static void leave_one(void) {
    volatile uint32_t kept[SCHEDULE]; /* deep enough for the way back not to lie over it */
    for (int i = 0; i < SCHEDULE; i++) kept[i] = (uint32_t)i;
    kept[BLOCK] = keeper.input[NK_INPUT_WORDS - 1];
    answer.number = NK_DONE;
    answer.compressions = kept[BLOCK] | 1;
}

static const struct situation {
    const char *name;
    void (*prepare)(void), (*call)(void);
} situations[] = {
    {"nk_seed that seeds", unseeded, seed},
    {"nk_event that seeds", unseeded, event},
    {"nk_interrupt that seeds", unseeded, interrupt},
    {"nk_read that seeds anew", as_it_is, read_97},
    {".. of one byte", as_it_is, read_1},
    {"nk_blocking_read", as_it_is, blocking_10},
    {".. that brings over", emptied, blocking_10},
    {"nk_issue that seeds anew", as_it_is, issue},
};

/* Seeded at clock 5,000, both pools with credit and filled with words that are all unlike. */
static void ready(void) {
    for (size_t i = 0; i < sizeof bytes; i++) bytes[i] = (uint8_t)(i * 37 + 11);
    answer = nk_make(&keeper, bytes, 48);
    for (size_t i = 0; i < 200; i++) {
        for (size_t j = 0; j < 64; j++) bytes[j] = (uint8_t)(j * 101 + i * 7 + 13);
        answer = nk_write(&keeper, bytes, 64);
    }
    for (uint32_t i = 0; i < NK_BLOCKING_WORDS; i++) keeper.blocking[i] = 0x9e3779b9u * (i + 1) ^ 0x5bd1e995u;
    keeper.ledger.input.count = 30000;
    keeper.ledger.blocking.count = 4000;
    keeper.ledger.seeding.mark = 1;
    keeper.ledger.seeding.clock = 5000;
    keeper.ledger.input.spot.at = 100;
    memset(keeper.came, 3, sizeof keeper.came);
    memset(&desk, 0, sizeof desk);
}

static int look(const char *name, void (*prepare)(void), void (*call)(void)) {
    ready();
    prepare();
    before = keeper;
    on_own_stack(call, 0xa5);
    if (answer.number != NK_DONE || answer.compressions == 0) {
        printf("FAILED: %s: nothing was extracted\n", name);
        exit(1);
    }
    return left();
}

int main(void) {
    int passed = 0, failed = 0, count = (int)(sizeof situations / sizeof *situations);
    for (int i = 0; i < count; i++) {
        int n = look(situations[i].name, situations[i].prepare, situations[i].call);
        const char *fault = own ? "  FAILED: words of the pool among them" : n > ALLOWED ? "  FAILED: the block can be worked out" : "";
        printf("%-26s %3d of the %d words of a schedule%s\n", situations[i].name, n, SCHEDULE, fault);
        if (*fault) failed++;
        else passed++;
    }
    if (look("what leaves sixteen", as_it_is, leave_sixteen) >= BLOCK) passed++;
    else failed++, puts("FAILED: sixteen words that are left on purpose were not noticed");
    look("what leaves one", as_it_is, leave_one);
    if (own) passed++;
    else failed++, puts("FAILED: a word of the pool that is left on purpose was not noticed");
    printf("%d passed, %d failed\n", passed, failed);
    return failed != 0;
}
