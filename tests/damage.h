/* Every way to be out of range that one field can have, as answer 17 tells it; of the devices' timers, those of a few devices. */
#ifndef DAMAGE_H
#define DAMAGE_H

#include "../include/nk.h"

/* Devices to try where all would take too long: the first and the last ones, and both sides of every place where a loop that goes over them
   in parts, or a device that is cut to fewer bits, would go wrong. */
enum { SOME_DEVICES = 16 };
static const uint32_t some_devices[SOME_DEVICES] = {0, 1, 2, 15, 16, 17, 31, 32, 255, 256, 257, 511, 512, 513, 1022, 1023};

/* One way, 0 to TIMER_DAMAGES - 1, for a device's timer to be out of range. The first five are each number just past one of its ends. */
enum { TIMER_DAMAGES = 15, NEAREST_TIMER_DAMAGES = 5 };
static inline void damage_timer(struct nk_keeper *k, uint32_t device, unsigned way) {
    static const int64_t firsts[4] = {-2147483649, 2147483648, INT64_MIN, INT64_MAX};
    static const int64_t seconds[4] = {-4294967296, 4294967296, INT64_MIN, INT64_MAX};
    static const uint8_t came[7] = {4, 8, 16, 32, 64, 128, 255};
    switch (way) {
    case 0: case 1: k->firsts[device] = firsts[way]; break;
    case 2: case 3: k->seconds[device] = seconds[way - 2]; break;
    case 4: k->came[device] = came[0]; break;
    case 5: case 6: k->firsts[device] = firsts[way - 3]; break;
    case 7: case 8: k->seconds[device] = seconds[way - 5]; break;
    default: k->came[device] = came[way - 8]; break;
    }
}

enum { DAMAGES = 14 + SOME_DEVICES * TIMER_DAMAGES + 128 + 4 };

/* One way, 0 to DAMAGES - 1, to be out of range; 0 where there is no such way. */
static inline int damage(struct nk_keeper *k, unsigned way) {
    struct nk_ledger *l = &k->ledger;
    switch (way) {
    case 0: l->input.count = 32769; return 1;
    case 1: l->input.count = UINT32_MAX; return 1;
    case 2: l->blocking.count = 8193; return 1;
    case 3: l->blocking.count = UINT32_MAX; return 1;
    case 4: l->input.spot.at = 128; return 1;
    case 5: l->input.spot.at = UINT32_MAX; return 1;
    case 6: l->blocking.spot.at = 32; return 1;
    case 7: l->blocking.spot.at = UINT32_MAX; return 1;
    case 8: l->input.spot.turn = 32; return 1;
    case 9: l->input.spot.turn = UINT32_MAX; return 1;
    case 10: l->blocking.spot.turn = 32; return 1;
    case 11: l->blocking.spot.turn = UINT32_MAX; return 1;
    case 12: l->spill.tally = 64; return 1;
    case 13: l->spill.tally = UINT32_MAX; return 1;
    default: way -= 14;
    }
    if (way < SOME_DEVICES * TIMER_DAMAGES) { damage_timer(k, some_devices[way / TIMER_DAMAGES], way % TIMER_DAMAGES); return 1; }
    way -= SOME_DEVICES * TIMER_DAMAGES;
    if (way < 128) { k->generator[way / 32] ^= 1u << way % 32; return 1; }
    way -= 128;
    if (way < 4) { k->generator[way] = 0; return 1; }
    return 0;
}

#endif
