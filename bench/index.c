/* The calls on an index, proved and plain, on the same journals in one run: nanoseconds a call. The journals are of reads, seven bytes
   each, so that a room holds 8,769 of them: the most records that there can be. The rounds go to and fro between the two sides, and the
   least time of each counts. A look-up tests the index against the whole journal first; what it costs behind that test shows in what
   63 further numbers cost, which lie 32 records behind their entry on average. Beside it stands counting from the front, as the lab did before there was an index. */
#include <stdint.h>
#include <stdio.h>
#include <stdlib.h>
#include <string.h>
#include <time.h>
#include "plain_index.h"
#include "rows.h"

enum { MOST = 8769, ROUNDS = 40, TIMES = 20, FURTHER = 20000 };

static uint8_t room[NK_ROOM];

static double now(void) {
    struct timespec t;
    clock_gettime(CLOCK_MONOTONIC, &t);
    return t.tv_sec * 1e9 + t.tv_nsec;
}

/* A journal of so many reads, in the room; its length. */
static size_t journal(size_t records) {
    memset(room, 0, sizeof room);
    memcpy(room, "NKJ\1", 4);
    for (size_t i = 0; i < records; i++) {
        uint8_t *p = room + 53 + 7 * i;
        p[0] = 5;
        p[1] = (uint8_t)i;
        p[5] = (uint8_t)(i % 64);
    }
    return 53 + 7 * records;
}

static void differ(const char *what) {
    fprintf(stderr, "bench/index: the two sides do not agree on %s\n", what);
    exit(1);
}

static double fresh(int proved, size_t len, struct nk_fresh *out) {
    double from = now();
    for (int i = 0; i < TIMES; i++) *out = proved ? nk_fresh_index(room, len) : plain_fresh_index(room, len);
    return (now() - from) / TIMES;
}

static double look(int proved, size_t len, const struct nk_index *index, const uint32_t *numbers, size_t count, uint32_t *places) {
    uint32_t answers[NK_LOOK_MOST];
    double from = now();
    for (int i = 0; i < TIMES; i++) {
        uint32_t refused = proved ? nk_look(room, len, *index, numbers, count, answers, places) : plain_look(room, len, index, numbers, count, answers, places);
        if (refused != 0 || answers[0] != 0) differ("a look-up that must not be refused");
    }
    return (now() - from) / TIMES;
}

static double append(int proved, size_t len, const struct nk_index *index, struct nk_appended *out) {
    static const uint8_t more[7] = {6, 0, 0, 0, 0, 9, 0};
    double from = now();
    for (int i = 0; i < TIMES; i++) *out = proved ? nk_append(room, len, *index, more, sizeof more) : plain_append(room, len, index, more, sizeof more);
    return (now() - from) / TIMES;
}

static double count(size_t len, uint32_t number, size_t *place) {
    int times = 1 + FURTHER / (int)(number + 1);
    double from = now();
    for (int i = 0; i < times; i++) {
        *place = plain_count(room, len, number);
        __asm__ volatile("" ::: "memory");
    }
    return (now() - from) / times;
}

static void both(const char *what, double least[2]) {
    print_row(what, least[1], least[0], 0, 0);
}

static void begin(double least[2]) {
    least[0] = least[1] = 1e18;
}

static void least_of(double *least, double t) {
    if (t < *least) *least = t;
}

int main(void) {
    double times[2];
    struct nk_fresh indexes[2];
    struct nk_appended longer[2];
    uint32_t places[2][NK_LOOK_MOST], numbers[NK_LOOK_MOST];
    size_t len = journal(MOST);

    begin(times);
    for (int r = 0; r < ROUNDS; r++)
        for (int proved = 0; proved < 2; proved++) least_of(&times[proved], fresh(proved, len, &indexes[proved]));
    if (memcmp(&indexes[0], &indexes[1], sizeof indexes[0]) != 0) differ("the index");
    both("index of 8,769 records", times);

    begin(times);
    numbers[0] = 8000;
    for (int r = 0; r < ROUNDS; r++)
        for (int proved = 0; proved < 2; proved++) least_of(&times[proved], look(proved, len, &indexes[0].index, numbers, 1, places[proved]));
    if (places[0][0] != places[1][0]) differ("record 8,000");
    both("look for record 8,000", times);

    begin(times);
    for (uint32_t i = 0; i < NK_LOOK_MOST; i++) numbers[i] = 8000 - 31 + i;
    for (int r = 0; r < ROUNDS; r++)
        for (int proved = 0; proved < 2; proved++) least_of(&times[proved], look(proved, len, &indexes[0].index, numbers, NK_LOOK_MOST, places[proved]));
    if (memcmp(places[0], places[1], sizeof places[0]) != 0) differ("64 records");
    both("look for 64 records around it", times);

    /* what one look-up costs behind the test: of a journal of 64 records, where the test weighs little, all records against the first */
    double first = 1e18, all_of_them = 1e18;
    len = journal(NK_LOOK_MOST);
    indexes[0] = plain_fresh_index(room, len);
    for (uint32_t i = 0; i < NK_LOOK_MOST; i++) numbers[i] = i;
    for (int r = 0; r < ROUNDS; r++) {
        least_of(&first, look(1, len, &indexes[0].index, numbers, 1, places[1]));
        least_of(&all_of_them, look(1, len, &indexes[0].index, numbers, NK_LOOK_MOST, places[1]));
    }
    print_growth("each further number of a look", (all_of_them - first) / (NK_LOOK_MOST - 1), 0);

    begin(times);
    len = journal(MOST - 1);
    indexes[0] = plain_fresh_index(room, len);
    for (int r = 0; r < ROUNDS; r++)
        for (int proved = 0; proved < 2; proved++) least_of(&times[proved], append(proved, len, &indexes[0].index, &longer[proved]));
    if (longer[0].number != 0 || longer[0].len != longer[1].len || memcmp(&longer[0].index, &longer[1].index, sizeof longer[0].index) != 0) differ("an append");
    both("append of a record to 8,768", times);

    /* how it grows: with the number of the record, and with the records of the journal */
    static const uint32_t which[] = {10, 100, 1000, 8000};
    static const char *const counted[] = {"count to record 10 (plain C)", "count to record 100", "count to record 1,000", "count to record 8,000"};
    static const char *const looked[] = {"look for record 10 of 8,769", "look for record 100 of 8,769", "look for record 1,000 of 8,769", "look for record 8,000 of 8,769"};
    static const char *const of_few[] = {"look for record 10 of 20", "look for record 100 of 200", "look for record 1,000 of 2,000", "look for record 8,000 of 8,769"};
    for (int i = 0; i < 4; i++) {
        double least = 1e18, all = 1e18, few = 1e18;
        size_t place, short_len;
        numbers[0] = which[i];
        len = journal(MOST);
        indexes[0] = plain_fresh_index(room, len);
        for (int r = 0; r < ROUNDS; r++) {
            least_of(&least, count(len, which[i], &place));
            least_of(&all, look(1, len, &indexes[0].index, numbers, 1, places[1]));
        }
        if (place != places[1][0]) differ("counting and looking up");
        short_len = i < 3 ? journal(2 * which[i]) : len;
        indexes[0] = plain_fresh_index(room, short_len);
        for (int r = 0; r < ROUNDS; r++) least_of(&few, look(1, short_len, &indexes[0].index, numbers, 1, places[1]));
        print_growth(counted[i], least, 0);
        print_growth(looked[i], all, 0);
        if (i < 3) print_growth(of_few[i], few, 0);
    }
    return 0;
}
