/* How much stack each call of nk.h uses, measured: the call runs on a stack of its own that is filled with a pattern, and what is no
 * longer the pattern was used. A call that does nothing goes the same way, and what it uses is subtracted. Each call is made in
 * several situations, the one with the longest way among them, and the most counts. Bytes that a function sets aside and never writes
 * are not seen.
 *
 * Fails where a call uses more than its limit, or than NK_STACK_MOST, on x86-64; on another processor the table is all there is. A call's
 * limit is what it used when it was last set, with the kit that README names, and 32 bytes. */
#define _XOPEN_SOURCE 700
#include <stdint.h>
#include <stdio.h>

#include "../include/nk.h"
#include "own_stack.h"

static struct nk_keeper keeper;
static struct nk_desk desk;
static struct nk_answer answer;
static uint8_t bytes[4097];
static const uint8_t drill = NK_DRILL, live = NK_LIVE;

static struct nk_answer nothing(void) {
    struct nk_answer a = {0, 0, 0, 0, 0};
    return a;
}

/* volatile, so that the compiler has to make the call */
static struct nk_answer (*volatile do_nothing)(void) = nothing;

/* The situations. Each begins with the keeper ready: seeded at clock 5,000, both pools with credit, no device new; and with a full desk that
   remembers what four draws of a drill number will be at clock 9,000, and what they will be at 900,000, where the first seeds anew. */

static void empty(void) { answer = do_nothing(); }
static void make(void) { answer = nk_make(&keeper, bytes, 48); }
static void make_refused(void) { answer = nk_make(&keeper, bytes, 47); }
static void event(void) { answer = nk_event(&keeper, 3, 9000, 1, 2); }
static void event_of_last_device(void) { answer = nk_event(&keeper, 1023, 9000, 1, 2); }
static void event_of_new_device(void) { keeper.came[3] = 0; answer = nk_event(&keeper, 3, 9000, 1, 2); }
static void event_seeds(void) { keeper.ledger.seeding.mark = 0; answer = nk_event(&keeper, 0, 9000, 1, 2); }
static void event_refused(void) { answer = nk_event(&keeper, 1024, 9000, 1, 2); }
static void interrupt(void) { answer = nk_interrupt(&keeper, 100, 1, 2, 3); }
static void interrupt_spills(void) { answer = nk_interrupt(&keeper, 9000, 1, 2, 3); }
static void interrupt_seeds(void) { keeper.ledger.seeding.mark = 0; answer = nk_interrupt(&keeper, 9000, 1, 2, 3); }
static void write_some(void) { answer = nk_write(&keeper, bytes, 4096); }
static void write_refused(void) { answer = nk_write(&keeper, bytes, 4097); }
static void seed(void) { answer = nk_seed(&keeper, 9000, bytes, 4096, 32768); }
static void seed_seeds(void) { keeper.ledger.seeding.mark = 0; answer = nk_seed(&keeper, 9000, bytes, 4096, 32768); }
static void read_short(void) { answer = nk_read(&keeper, 9000, bytes, 1); }
static void read_long(void) { answer = nk_read(&keeper, 9000, bytes, 4096); }
static void read_reseeds(void) { answer = nk_read(&keeper, 900000, bytes, 97); }
static void read_refused(void) { keeper.ledger.seeding.mark = 0; answer = nk_read(&keeper, 900000, bytes, 97); }
static void blocking_short(void) { answer = nk_blocking_read(&keeper, bytes, 1); }
static void blocking_transfers(void) { keeper.ledger.blocking.count = 0; answer = nk_blocking_read(&keeper, bytes, 128); }
static void blocking_long(void) { answer = nk_blocking_read(&keeper, bytes, 4096); }
static void blocking_refused(void) {
    keeper.ledger.blocking.count = keeper.ledger.input.count = 0;
    answer = nk_blocking_read(&keeper, bytes, 128);
}
static void damaged(void) { keeper.seconds[1023] = INT64_MAX; answer = nk_blocking_read(&keeper, bytes, 128); }
/* what comes back has 16 bytes more than an answer; they lie in the caller's frame and are counted as the call's */
static void issue(void) { answer = nk_issue(&keeper, &desk, 9000, &live, 1).answer; }
static void issue_at_empty_desk(void) { desk.count = 0; answer = nk_issue(&keeper, &desk, 9000, &drill, 1).answer; }
static void issue_reseeds(void) { answer = nk_issue(&keeper, &desk, 900000, &live, 1).answer; }
static void issue_repeats(void) { answer = nk_issue(&keeper, &desk, 9000, &drill, 1).answer; }
static void issue_reseeds_and_repeats(void) { answer = nk_issue(&keeper, &desk, 900000, &drill, 1).answer; }
static void issue_of_no_class(void) { answer = nk_issue(&keeper, &desk, 9000, bytes, 4097).answer; }
static void issue_unseeded(void) { keeper.ledger.seeding.mark = 0; answer = nk_issue(&keeper, &desk, 9000, &live, 1).answer; }
static void issue_at_damaged_desk(void) { desk.count = 65; answer = nk_issue(&keeper, &desk, 9000, &live, 1).answer; }

struct situation {
    const char *name; /* null: one more situation of the call above */
    size_t limit;     /* of the call */
    void (*call)(void);
    uint32_t number;
    int hashes; /* the situation is one where a pool is extracted from */
};

static const struct situation situations[] = {
    {"nk_make", 160, make, NK_DONE, 0},
    {NULL, 0, make_refused, NK_START_NOT_48, 0},
    {"nk_event", 464, event, NK_DONE, 0},
    {NULL, 0, event_of_last_device, NK_DONE, 0},
    {NULL, 0, event_of_new_device, NK_DONE, 0},
    {NULL, 0, event_seeds, NK_DONE, 1},
    {NULL, 0, event_refused, NK_NO_SUCH_DEVICE, 0},
    {"nk_interrupt", 464, interrupt, NK_DONE, 0},
    {NULL, 0, interrupt_spills, NK_DONE, 0},
    {NULL, 0, interrupt_seeds, NK_DONE, 1},
    {"nk_write", 216, write_some, NK_DONE, 0},
    {NULL, 0, write_refused, NK_TOO_LONG, 0},
    {"nk_seed", 496, seed, NK_DONE, 0},
    {NULL, 0, seed_seeds, NK_DONE, 1},
    {"nk_read", 528, read_short, NK_DONE, 0},
    {NULL, 0, read_long, NK_DONE, 0},
    {NULL, 0, read_reseeds, NK_DONE, 1},
    {NULL, 0, read_refused, NK_UNSEEDED, 0},
    {"nk_blocking_read", 640, blocking_short, NK_DONE, 1},
    {NULL, 0, blocking_transfers, NK_DONE, 1},
    {NULL, 0, blocking_long, NK_DONE, 1},
    {NULL, 0, blocking_refused, NK_WOULD_BLOCK, 0},
    {NULL, 0, damaged, NK_OUT_OF_RANGE, 0},
    {"nk_issue", 560, issue, NK_DONE, 0},
    {NULL, 0, issue_at_empty_desk, NK_DONE, 0},
    {NULL, 0, issue_reseeds, NK_DONE, 1},
    {NULL, 0, issue_repeats, NK_ALL_REPEATED, 0},
    {NULL, 0, issue_reseeds_and_repeats, NK_ALL_REPEATED, 1},
    {NULL, 0, issue_of_no_class, NK_NO_SUCH_CLASS, 0},
    {NULL, 0, issue_unseeded, NK_UNSEEDED, 0},
    {NULL, 0, issue_at_damaged_desk, NK_OUT_OF_RANGE, 0},
};

/* What four draws of a drill number will be, at four places of the desk. */
static void remember_draws(uint8_t places[4][NK_NUMBER_LENGTH], uint32_t now) {
    static struct nk_keeper copy;
    copy = keeper;
    for (int i = 0; i < 4; i++) {
        places[i][0] = NK_DRILL;
        if (nk_read(&copy, now, places[i] + 1, NK_NUMBER_LENGTH - 1).number != NK_DONE) puts("FAILED: a draw is refused"), exit(1);
    }
}

static void ready(void) {
    for (size_t i = 0; i < sizeof bytes; i++) bytes[i] = (uint8_t)(i * 37 + 11);
    if (nk_make(&keeper, bytes, 48).number != NK_DONE) {
        puts("FAILED: a keeper is not made");
        exit(1);
    }
    keeper.ledger.input.count = 30000;
    keeper.ledger.blocking.count = 4000;
    keeper.ledger.seeding.mark = 1;
    keeper.ledger.seeding.clock = 5000;
    memset(keeper.came, 3, sizeof keeper.came);
    memset(&desk, 0, sizeof desk);
    desk.count = NK_REMEMBERED;
    remember_draws(desk.numbers, 9000);
    remember_draws(desk.numbers + 4, 900000);
}

static size_t used_over(void (*call)(void), uint8_t pattern) {
    on_own_stack(call, pattern);
    size_t low = 0;
    while (low < sizeof own_stack && own_stack[low] == pattern) low++;
    return sizeof own_stack - low;
}

/* A byte that happens to equal one pattern does not equal the other. */
static size_t used(void (*call)(void)) {
    ready();
    size_t one = used_over(call, 0xa5);
    ready();
    size_t other = used_over(call, 0x5a);
    return one > other ? one : other;
}

int main(void) {
#if defined __x86_64__
    const int held = 1;
#else
    const int held = 0;
#endif
    size_t none = used(empty), count = sizeof situations / sizeof *situations;
    unsigned passed = 0, failed = 0;
    printf("%-20s %s  %s\n", "call", "bytes of stack", "limit");
    for (size_t i = 0; i < count;) {
        const char *name = situations[i].name;
        size_t most = 0, limit = situations[i].limit < NK_STACK_MOST ? situations[i].limit : NK_STACK_MOST;
        int right = 1;
        do {
            size_t u = used(situations[i].call);
            u = u > none ? u - none : 0;
            if (u > most) most = u;
            right &= answer.number == situations[i].number && (answer.compressions > 0) == situations[i].hashes;
        } while (++i < count && !situations[i].name);
        int good = right && (!held || most <= limit);
        if (good) passed++; else failed++;
        printf("%-20s %14zu  %5zu%s%s\n", name, most, limit, right ? "" : "  FAILED: another answer than expected",
            most > limit && held ? "  FAILED: over the limit" : "");
    }
    if (!held) printf("the limits are for x86-64; ");
    printf("a call that does nothing used %zu, and that is subtracted\n", none);
    printf("%u passed, %u failed\n", passed, failed);
    return failed ? 1 : 0;
}
