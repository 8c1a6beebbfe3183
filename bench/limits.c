#define _POSIX_C_SOURCE 200809L
#include "limits.h"

#include <stdint.h>
#include <time.h>

enum { ROUNDS = 40, TURNS = 2000, MOST_TIMERS = 1024 };

/* the compiler may not know what x is, and so makes each step as it stands */
#define WAIT(x) __asm__ volatile("" : "+r"(x))

static double now(void) {
    struct timespec t;
    clock_gettime(CLOCK_MONOTONIC, &t);
    return (double)t.tv_sec * 1e9 + (double)t.tv_nsec;
}

static void steps(void) {
    uint32_t x = 1, y = 3;
    WAIT(y);
    for (int i = 0; i < TURNS; i++) {
        x += y; WAIT(x);
        x ^= y; WAIT(x);
        x += y; WAIT(x);
        x ^= y; WAIT(x);
        x += y; WAIT(x);
        x ^= y; WAIT(x);
        x += y; WAIT(x);
        x ^= y; WAIT(x);
    }
}

static void twists(void) {
    static const uint32_t table[8] = {0x00000000, 0x3b6e20c8, 0x76dc4190, 0x4db26158, 0xedb88320, 0xd6d6a3e8, 0x9b64c2b0, 0xa00ae278};
    const uint32_t *entries = table;
    uint32_t x = 5, y = 3;
    WAIT(entries);
    WAIT(y);
    for (int i = 0; i < TURNS; i++) {
        x = entries[x & 7] ^ y; WAIT(x);
        x = entries[x & 7] ^ y; WAIT(x);
        x = entries[x & 7] ^ y; WAIT(x);
        x = entries[x & 7] ^ y; WAIT(x);
    }
}

/* Two numbers a load, which every machine here can do, and four sums side by side, so that no load waits. The bytes of sixteen timers
   are a load more. */
typedef int64_t pair __attribute__((vector_size(16)));
static pair numbers[MOST_TIMERS + MOST_TIMERS / 16];
static size_t loaded;

static void loads(void) {
    for (int i = 0; i < TURNS / 10; i++) {
        const pair *from = numbers;
        pair a = {0}, b = {0}, c = {0}, d = {0};
        WAIT(from);
        size_t k = 0;
        for (; k + 4 <= loaded; k += 4) {
            a |= from[k];
            b |= from[k + 1];
            c |= from[k + 2];
            d |= from[k + 3];
        }
        for (; k < loaded; k++) a |= from[k];
        a |= b | c | d;
        int64_t all = a[0] | a[1];
        WAIT(all);
    }
}

/* The least that a run took, over the parts that it is made of. */
static double least(void (*run)(void), double parts) {
    double best = 1e18;
    for (int r = 0; r < ROUNDS; r++) {
        double from = now();
        run();
        double took = now() - from;
        if (took < best) best = took;
    }
    return best / parts;
}

double limit_step(void) { return least(steps, 8.0 * TURNS); }
double limit_block(void) { return 20 * 12 * limit_step(); }
double limit_compression(void) { return 80 * 2 * limit_step(); }
double limit_byte(void) { return least(twists, 4.0 * TURNS); }

double limit_timers(size_t count) {
    if (count > MOST_TIMERS) count = MOST_TIMERS;
    loaded = count + count / 16;
    for (size_t i = 0; i < loaded; i++) numbers[i] = (pair){(int64_t)i + 1, -(int64_t)i}; /* memory of its own, and not the page of zeros */
    return least(loads, TURNS / 10);
}
