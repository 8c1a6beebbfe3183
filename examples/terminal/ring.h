/* Interrupts on their way to the keeper. A handler must not call the keeper, because the main loop may be in the middle of a call: it
 * puts its numbers here, and the main loop takes them out. One side only puts and the other only takes, so no interrupt has to be shut
 * out. Handlers that break into one another need a ring each. */
#ifndef RING_H
#define RING_H

#include <stdatomic.h>
#include <stdbool.h>
#include <stdint.h>

enum { RING_LENGTH = 32 }; /* a power of two, so that places go on rightly when the counts wrap */

struct ring_entry {
    uint32_t now, number;
    uint64_t stamp, address;
};

struct ring {
    struct ring_entry entries[RING_LENGTH];
    _Atomic uint32_t put, taken; /* how many so far, modulo 2^32 */
    _Atomic uint32_t dropped;    /* how many found the ring full */
};

/* For the handler. A full ring drops the new entry: what is lost is noise, and the handler never waits. */
static inline void ring_put(struct ring *r, struct ring_entry entry) {
    uint32_t put = atomic_load_explicit(&r->put, memory_order_relaxed);
    if (put - atomic_load_explicit(&r->taken, memory_order_acquire) == RING_LENGTH) {
        atomic_fetch_add_explicit(&r->dropped, 1, memory_order_relaxed);
        return;
    }
    r->entries[put % RING_LENGTH] = entry;
    atomic_store_explicit(&r->put, put + 1, memory_order_release);
}

/* For the main loop. False where there is none. */
static inline bool ring_take(struct ring *r, struct ring_entry *entry) {
    uint32_t taken = atomic_load_explicit(&r->taken, memory_order_relaxed);
    if (taken == atomic_load_explicit(&r->put, memory_order_acquire)) return false;
    *entry = r->entries[taken % RING_LENGTH];
    atomic_store_explicit(&r->taken, taken + 1, memory_order_release);
    return true;
}

#endif
