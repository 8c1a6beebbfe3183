/* The proved keeper and the plain one on the same data in one run: nanoseconds a call. The rounds go to and fro between the two, and the
   least time of each counts, so that whatever else the machine does weighs little. After every round both records, all answers, both
   rooms, both desks and all message numbers must be the same to the last byte. */
#define _POSIX_C_SOURCE 200809L
#include <stdint.h>
#include <stdio.h>
#include <stdlib.h>
#include <string.h>
#include <time.h>

#include "../include/nk.h"
#include "limits.h"
#include "plain_desk.h"
#include "plain_keeper.h"
#include "plain_range.h"
#include "rows.h"

enum { ROUNDS = 40, LENGTH = 4096, BLOCKING_LENGTH = 128, MOST_CALLS = 2048 };

struct keeper_calls {
    struct nk_answer (*make)(struct nk_keeper *, const uint8_t *, size_t);
    struct nk_answer (*event)(struct nk_keeper *, uint32_t, uint32_t, uint64_t, uint32_t);
    struct nk_answer (*interrupt)(struct nk_keeper *, uint32_t, uint32_t, uint64_t, uint64_t);
    struct nk_answer (*write)(struct nk_keeper *, const uint8_t *, size_t);
    struct nk_answer (*read)(struct nk_keeper *, uint32_t, uint8_t *, size_t);
    struct nk_answer (*blocking_read)(struct nk_keeper *, uint8_t *, size_t);
    struct nk_issued (*issue)(struct nk_keeper *, struct nk_desk *, uint32_t, const uint8_t *, size_t);
};

/* One side's memory. */
struct side {
    struct nk_keeper keeper;
    struct nk_desk desk;
    uint8_t room[LENGTH];
    struct nk_answer answers[MOST_CALLS];
    uint8_t numbers[MOST_CALLS][NK_NUMBER_LENGTH];
    uint32_t clock;
    double least;
};

static struct side sides[2];
static uint8_t noise[LENGTH];
static size_t length = LENGTH;          /* of each write and read */
static unsigned devices = NK_DEVICES;   /* that have events in turn */
static uint32_t remembered;             /* numbers at a desk before each is issued */

static double now(void) {
    struct timespec t;
    clock_gettime(CLOCK_MONOTONIC, &t);
    return (double)t.tv_sec * 1e9 + (double)t.tv_nsec;
}

/* Each workload makes n calls. */

static void makes(struct side *s, const struct keeper_calls *c, unsigned n) {
    for (unsigned i = 0; i < n; i++) s->answers[i] = c->make(&s->keeper, noise + i % 64, NK_START_LENGTH);
}

/* a read of no bytes tests the range and does nothing else */
static void range_tests(struct side *s, const struct keeper_calls *c, unsigned n) {
    for (unsigned i = 0; i < n; i++) s->answers[i] = c->read(&s->keeper, s->keeper.ledger.seeding.clock + i, s->room, 0);
}

static void events(struct side *s, const struct keeper_calls *c, unsigned n) {
    for (unsigned i = 0; i < n; i++) {
        s->clock += 3 + i * i % 61;
        s->answers[i] = c->event(&s->keeper, i % devices, s->clock, 0x9e3779b97f4a7c15u * (i + 1), i + 1);
    }
}

/* the tally is put back, so that the 64th does not spill */
static void interrupts(struct side *s, const struct keeper_calls *c, unsigned n) {
    for (unsigned i = 0; i < n; i++) {
        s->keeper.ledger.spill.tally = 0;
        s->answers[i] = c->interrupt(
            &s->keeper, s->keeper.ledger.spill.clock + i % 1000, i % 40, 0x9e3779b97f4a7c15u * (i + 1), 0x08000000u + 4 * i);
    }
}

static void spills(struct side *s, const struct keeper_calls *c, unsigned n) {
    for (unsigned i = 0; i < n; i++)
        s->answers[i] = c->interrupt(
            &s->keeper, s->keeper.ledger.spill.clock + 1001, i % 40, 0x9e3779b97f4a7c15u * (i + 1), 0x08000000u + 4 * i);
}

static void writes(struct side *s, const struct keeper_calls *c, unsigned n) {
    for (unsigned i = 0; i < n; i++) s->answers[i] = c->write(&s->keeper, noise, length);
}

static void reads(struct side *s, const struct keeper_calls *c, unsigned n) {
    for (unsigned i = 0; i < n; i++) s->answers[i] = c->read(&s->keeper, s->keeper.ledger.seeding.clock + i, s->room, length);
}

/* the counts are put back, so that each read brings 128 bytes over and hands out what they are credited for */
static void blocking_reads(struct side *s, const struct keeper_calls *c, unsigned n) {
    for (unsigned i = 0; i < n; i++) {
        s->keeper.ledger.input.count = 32768;
        s->keeper.ledger.blocking.count = 0;
        s->answers[i] = c->blocking_read(&s->keeper, s->room, BLOCKING_LENGTH);
    }
}

/* the count is put back, so that each number is issued at a desk of so many; a full one drops its oldest each time. The places that the
   count then takes in hold zeroes at first, which no number equals */
static void issues(struct side *s, const struct keeper_calls *c, unsigned n) {
    static const uint8_t classes[2] = {NK_DRILL, NK_LIVE};
    for (unsigned i = 0; i < n; i++) {
        s->desk.count = remembered;
        struct nk_issued issued = c->issue(&s->keeper, &s->desk, s->keeper.ledger.seeding.clock + i, &classes[i % 2], 1);
        s->answers[i] = issued.answer;
        memcpy(s->numbers[i], issued.number, NK_NUMBER_LENGTH);
    }
}

static void issues_empty(struct side *s, const struct keeper_calls *c, unsigned n) {
    remembered = 0;
    issues(s, c, n);
}

static void issues_full(struct side *s, const struct keeper_calls *c, unsigned n) {
    remembered = NK_REMEMBERED;
    issues(s, c, n);
}

/* What no program could do a call of each in less than. The range test waits for nothing that a call does, so it may go on beside it, and
   the longer of the two is the limit. */

static double larger(double a, double b) { return a > b ? a : b; }
static double all_timers(void) { return limit_timers(NK_DEVICES); }
static double sixteen_bytes(void) { return larger(16 * limit_byte(), all_timers()); }
static double long_write(void) { return 4096 * limit_byte(); }
static double long_read(void) { return 65 * limit_block(); }
static double long_blocking_read(void) { return 120 * limit_compression(); }
static double one_draw(void) { return larger(limit_block(), all_timers()); }
static double no_limit(void) { return 0; }

/* After so much credit the input pool is so full that no event and no spill adds a unit, so that all of a workload's calls answer alike. */
static void make_ready(struct nk_keeper *k) {
    memset(k, 0, sizeof *k);
    plain_make(k, noise, NK_START_LENGTH);
    for (int i = 0; i < 4; i++) plain_seed(k, 1000, noise, LENGTH, 8 * LENGTH);
}

/* A generator read whose range test is the one that comes to mind first; only reads of no bytes are made by it. */
static struct nk_answer obvious_read(struct nk_keeper *k, uint32_t now, uint8_t *out, size_t len) {
    struct nk_answer a = {plain_in_range_obvious(k) ? NK_DONE : NK_OUT_OF_RANGE, 0, 0, 0, 0};
    return len == 0 ? a : plain_read(k, now, out, len);
}

static const struct keeper_calls proved = {nk_make, nk_event, nk_interrupt, nk_write, nk_read, nk_blocking_read, nk_issue};
static const struct keeper_calls plain = {
    plain_make, plain_event, plain_interrupt, plain_write, plain_read, plain_blocking_read, plain_issue};
static const struct keeper_calls obvious = {
    plain_make, plain_event, plain_interrupt, plain_write, obvious_read, plain_blocking_read, plain_issue};

enum {
    RANGE_TEST, OBVIOUS_RANGE_TEST, MAKES, EVENTS, INTERRUPTS, SPILLS, WRITES, READS, BLOCKING_READS, ISSUES_EMPTY, ISSUES_FULL, WORKLOADS
};

static const struct workload {
    const char *name;
    const struct keeper_calls *against;
    void (*run)(struct side *, const struct keeper_calls *, unsigned);
    unsigned calls;
    struct nk_answer each; /* what every call must answer, so that the work measured is the work meant */
    double (*limit)(void);
} workloads[WORKLOADS] = {
    [RANGE_TEST] = {"range test of 1,024 devices: a read of 0 bytes", &plain, range_tests, 2048, {NK_DONE, 0, 0, 0, 0}, all_timers},
    [OBVIOUS_RANGE_TEST] = {
        ".. against C that stops at the first out of range", &obvious, range_tests, 2048, {NK_DONE, 0, 0, 0, 0}, all_timers},
    [MAKES] = {"making a keeper", &plain, makes, 2048, {NK_DONE, 0, 0, 0, 0}, no_limit},
    [EVENTS] = {"device event", &plain, events, 2048, {NK_DONE, 0, 0, 0, 0}, sixteen_bytes},
    [INTERRUPTS] = {"interrupt without spill", &plain, interrupts, 2048, {NK_DONE, 0, 0, 0, 0}, all_timers},
    [SPILLS] = {"interrupt with spill", &plain, spills, 2048, {NK_DONE, 0, 0, 0, 0}, sixteen_bytes},
    [WRITES] = {"write of 4,096 bytes", &plain, writes, 100, {NK_DONE, 0, 0, 0, 0}, long_write},
    [READS] = {"generator read of 4,096 bytes", &plain, reads, 200, {NK_DONE, 4096, 65, 0, 0}, long_read},
    [BLOCKING_READS] = {"blocking read of 128 bytes", &plain, blocking_reads, 60, {NK_DONE, 78, 0, 120, 4992}, long_blocking_read},
    [ISSUES_EMPTY] = {"issue of a number, empty desk", &plain, issues_empty, 2048, {NK_DONE, 16, 1, 0, 0}, one_draw},
    [ISSUES_FULL] = {"issue of a number, 64 remembered", &plain, issues_full, 2048, {NK_DONE, 16, 1, 0, 0}, one_draw}};

/* Runs a workload on both sides; what each call took at the least is then in sides[].least. `each` may be left out. */
static void measure(const struct workload *load, const struct nk_answer *each) {
    const struct keeper_calls *const calls[2] = {&proved, load->against};
    for (int k = 0; k < 2; k++) {
        memset(&sides[k], 0, sizeof sides[k]);
        make_ready(&sides[k].keeper);
        sides[k].least = 1e18;
    }
    for (int round = 0; round < ROUNDS; round++) {
        for (int turn = 0; turn < 2; turn++) {
            int k = (round + turn) % 2;
            double from = now();
            load->run(&sides[k], calls[k], load->calls);
            double took = (now() - from) / load->calls;
            if (took < sides[k].least) sides[k].least = took;
        }
        if (memcmp(&sides[0].keeper, &sides[1].keeper, sizeof sides[0].keeper) || memcmp(sides[0].room, sides[1].room, LENGTH) ||
            memcmp(sides[0].answers, sides[1].answers, sizeof sides[0].answers) ||
            memcmp(&sides[0].desk, &sides[1].desk, sizeof sides[0].desk) ||
            memcmp(sides[0].numbers, sides[1].numbers, sizeof sides[0].numbers)) {
            printf("FAILED: %s, round %d: the proved and the plain keeper differ\n", load->name, round);
            exit(1);
        }
        for (unsigned i = 0; each && i < load->calls; i++)
            if (memcmp(&sides[0].answers[i], each, sizeof *each)) {
                printf("FAILED: %s, round %d, call %u: another answer than this measurement is about\n", load->name, round, i);
                exit(1);
            }
    }
}

/* How the proved calls' cost grows with the length. */
static void measure_lengths(const struct workload *load, const char *what) {
    static const size_t lengths[] = {64, 256, 1024, 4096};
    char name[64];
    for (size_t i = 0; i < sizeof lengths / sizeof *lengths; i++) {
        length = lengths[i];
        measure(load, NULL);
        snprintf(name, sizeof name, "%s of %zu bytes", what, length);
        print_growth(name, sides[0].least, (double)length);
    }
}

/* .. and with the devices that have events in turn, up to all that there are. */
static void measure_devices(void) {
    static const unsigned sets[] = {1, 16, 256, NK_DEVICES};
    char name[64];
    for (size_t i = 0; i < sizeof sets / sizeof *sets; i++) {
        devices = sets[i];
        measure(&workloads[EVENTS], NULL);
        snprintf(name, sizeof name, "event, %u devices in turn", devices);
        print_growth(name, sides[0].least, 0);
    }
}

/* .. and with the numbers that a desk remembers. */
static void measure_desks(void) {
    static const struct workload load = {.name = "issue", .against = &plain, .run = issues, .calls = 2048};
    static const uint32_t desks[] = {0, 16, 32, 63, NK_REMEMBERED};
    char name[64];
    for (size_t i = 0; i < sizeof desks / sizeof *desks; i++) {
        remembered = desks[i];
        measure(&load, NULL);
        snprintf(name, sizeof name, "issue, %u remembered", (unsigned)remembered);
        print_growth(name, sides[0].least, 0);
    }
}

/* The bytes that the range test reads, in plain C that does no more than read them. */
static void measure_reading(void) {
    enum { TIMES = 2048 };
    double least = 1e18;
    volatile uint64_t all = 0;
    for (int round = 0; round < ROUNDS; round++) {
        double from = now();
        for (int i = 0; i < TIMES; i++) all |= plain_read_timers(&sides[0].keeper);
        double took = (now() - from) / TIMES;
        if (took < least) least = took;
    }
    print_growth("all timers only read, plain C", least, (2 * sizeof(int64_t) + 1) * NK_DEVICES);
}

int main(void) {
    for (size_t i = 0; i < sizeof noise; i++) noise[i] = (uint8_t)(i * 167 + (i >> 3));
    for (const struct workload *w = workloads; w < workloads + WORKLOADS; w++) {
        measure(w, &w->each);
        print_row(w->name, sides[0].least, sides[1].least, 0, w->limit());
    }
    measure_lengths(&workloads[WRITES], "write");
    measure_lengths(&workloads[READS], "generator read");
    measure_devices();
    measure_desks();
    measure_reading();
    return 0;
}
