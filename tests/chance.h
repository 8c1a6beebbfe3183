/* Random numbers that a seed repeats. */
#ifndef CHANCE_H
#define CHANCE_H

#include <stdint.h>

static uint64_t chance_at;

static inline uint64_t chance(void) {
    uint64_t z = chance_at += 0x9e3779b97f4a7c15u;
    z = (z ^ z >> 30) * 0xbf58476d1ce4e5b9u;
    z = (z ^ z >> 27) * 0x94d049bb133111ebu;
    return z ^ z >> 31;
}

static inline uint32_t below(uint32_t n) {
    return (uint32_t)(chance() >> 32) % n;
}

#endif
