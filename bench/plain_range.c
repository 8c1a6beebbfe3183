#include "plain_range.h"

enum { INPUT_SIZE = 32768, BLOCKING_SIZE = 8192, TALLY_MOST = 63, TURN_MOST = 31, CAME_MOST = 3 };

static int ledger_in_range(const struct nk_ledger *l) {
    return l->input.count <= INPUT_SIZE && l->blocking.count <= BLOCKING_SIZE && l->spill.tally <= TALLY_MOST &&
           l->input.spot.at < NK_INPUT_WORDS && l->input.spot.turn <= TURN_MOST && l->blocking.spot.at < NK_BLOCKING_WORDS &&
           l->blocking.spot.turn <= TURN_MOST;
}

static int generator_in_range(const uint32_t words[NK_GENERATOR_WORDS]) {
    return words[0] == 0x61707865 && words[1] == 0x3320646e && words[2] == 0x79622d32 && words[3] == 0x6b206574;
}

/* A number that is in range stays below a power of two once a fitting one is added to it: a first difference below 2^32 with 2^31, a
   second one below 2^33 both with 2^32 - 1 (so it is from -(2^32 - 1) to 2^32) and with 2^32 (from -2^32 to 2^32 - 1). So sums are gathered
   by `or` and looked at once, at the end. Nothing of it compares, because SSE2 compares no numbers of 64 bits.

   Two devices a turn, one of each half, and what a turn costs by itself is halved; the counts of events have a loop of their own, since
   sixteen of them go into a register and only two of the others. */
static uint64_t raised_first(const struct nk_keeper *k, int device) {
    return (uint64_t)k->firsts[device] + 0x80000000u;
}

static uint64_t raised_second(const struct nk_keeper *k, int device) {
    uint64_t second = (uint64_t)k->seconds[device];
    return (second + 0xffffffffu) | (second + 0x100000000u);
}

static int timers_in_range(const struct nk_keeper *k) {
    enum { HALF = NK_DEVICES / 2 };
    uint64_t firsts = 0, seconds = 0;
    uint8_t came = 0;
    for (int i = 0; i < HALF; i++) {
        firsts |= raised_first(k, i);
        seconds |= raised_second(k, i);
        firsts |= raised_first(k, i + HALF);
        seconds |= raised_second(k, i + HALF);
    }
    for (int i = 0; i < NK_DEVICES; i++) came |= k->came[i];
    return (firsts >> 32 | seconds >> 33 | (came & ~CAME_MOST)) == 0;
}

int plain_in_range(const struct nk_keeper *k) {
    return ledger_in_range(&k->ledger) && generator_in_range(k->generator) && timers_in_range(k);
}

int plain_in_range_obvious(const struct nk_keeper *k) {
    if (!ledger_in_range(&k->ledger) || !generator_in_range(k->generator)) return 0;
    for (int i = 0; i < NK_DEVICES; i++) {
        if (k->firsts[i] < -2147483648 || k->firsts[i] > 2147483647) return 0;
        if (k->seconds[i] < -4294967295 || k->seconds[i] > 4294967295) return 0;
        if (k->came[i] > CAME_MOST) return 0;
    }
    return 1;
}

uint64_t plain_read_timers(const struct nk_keeper *k) {
    uint64_t all = 0;
    uint8_t came = 0;
    for (int i = 0; i < NK_DEVICES; i++) all |= (uint64_t)k->firsts[i];
    for (int i = 0; i < NK_DEVICES; i++) all |= (uint64_t)k->seconds[i];
    for (int i = 0; i < NK_DEVICES; i++) came |= k->came[i];
    return all | came;
}
