/* The converter, proved and plain, on the same journals in one run: nanoseconds a call. One journal is of events, each of which grows by a
   byte and so has to be moved by itself: 3,230 of them are the most whose outcome has room. One is of long writes, where all there is to do
   is to copy. The rounds go to and fro between the two sides, and the least time of each counts. */
#define _POSIX_C_SOURCE 200809L
#include <stdint.h>
#include <stdio.h>
#include <stdlib.h>
#include <string.h>
#include <time.h>
#include "plain_convert.h"
#include "rows.h"

enum { ROOM = 61440, HEADER = 53, MOST_EVENTS = 3230, EVENT = 18, WRITES = 14, WRITE = 7 + 4096, ROUNDS = 40, TIMES = 10 };

static uint8_t journal[ROOM], rooms[2][ROOM];

static double now(void) {
    struct timespec t;
    clock_gettime(CLOCK_MONOTONIC, &t);
    return (double)t.tv_sec * 1e9 + (double)t.tv_nsec;
}

static void begin(void) {
    memset(journal, 0, sizeof journal);
    memcpy(journal, "NKJ\1", 4);
}

/* A journal of so many events, of all devices that version 1 has; its length. */
static size_t events(size_t many) {
    begin();
    for (size_t i = 0; i < many; i++) {
        uint8_t *p = journal + HEADER + EVENT * i;
        for (size_t j = 0; j < EVENT; j++) p[j] = (uint8_t)(i * 7 + j * 13);
        p[0] = 1;
        p[5] = (uint8_t)(i % 16);
    }
    return HEADER + EVENT * many;
}

static size_t writes(size_t many) {
    begin();
    for (size_t i = 0; i < many; i++) {
        uint8_t *p = journal + HEADER + WRITE * i;
        for (size_t j = 0; j < WRITE; j++) p[j] = (uint8_t)(i * 7 + j * 13);
        p[0] = 3;
        p[5] = 0;
        p[6] = 16;
    }
    return HEADER + WRITE * many;
}

static double once(int proved, size_t len, size_t outcome) {
    double from = now();
    for (int i = 0; i < TIMES; i++) {
        struct nk_converted c = proved ? nk_convert(journal, len, rooms[proved], ROOM) : plain_convert(journal, len, rooms[proved], ROOM);
        if (c.number != 0 || c.len != outcome) {
            fprintf(stderr, "bench/convert: a journal that must be converted is answered %u\n", (unsigned)c.number);
            exit(1);
        }
    }
    return (now() - from) / TIMES;
}

static void measure(size_t len, size_t outcome, double least[2]) {
    least[0] = least[1] = 1e18;
    memset(rooms, 0, sizeof rooms);
    for (int r = 0; r < ROUNDS; r++)
        for (int proved = 0; proved < 2; proved++) {
            double took = once(proved, len, outcome);
            if (took < least[proved]) least[proved] = took;
        }
    if (memcmp(rooms[0], rooms[1], ROOM) != 0) {
        fprintf(stderr, "bench/convert: the two sides do not write the same\n");
        exit(1);
    }
}

int main(void) {
    static const size_t sets[] = {100, 1000, MOST_EVENTS};
    double least[2];
    char name[64];
    measure(events(MOST_EVENTS), HEADER + (EVENT + 1) * MOST_EVENTS, least);
    print_row("convert of 3,230 events", least[1], least[0], 0, 0);
    measure(writes(WRITES), HEADER + WRITE * WRITES, least);
    print_row("convert of 14 writes of 4,096 bytes", least[1], least[0], 0, 0);
    for (size_t i = 0; i < sizeof sets / sizeof *sets; i++) {
        measure(events(sets[i]), HEADER + (EVENT + 1) * sets[i], least);
        snprintf(name, sizeof name, "convert of %zu events", sets[i]);
        print_growth(name, least[1], (double)(EVENT * sets[i]));
    }
    return 0;
}
