/* Follows a trace of calls on a journal and its index that the second program wrote (`oracle lookups`; its first lines say what a trace
   looks like) and makes each call through the C face: the number, every number of an index that is answered, the length, all 61,440 bytes
   of the room, and all 64 answers and places of a look-up must be the trace's. What is handed in to be read, and bytes around all that is
   lent, must stay. Prints how many calls were followed; the exit status is 1 at the first difference. */
#include <stdint.h>
#include <stdio.h>
#include <string.h>

#include "nk_index.h"
#include "trace_lines.h"

enum { ROOM = 61440, FOUND = 64, PLACES = 138, KINDS = 6, GUARD = 64, MOST = 1 << 17, MOST_NUMBERS = 1 << 10 };

_Static_assert(sizeof(struct nk_index) == sizeof(uint32_t[PLACES + KINDS + 1]), "145 numbers, and nothing between them");

static struct {
    uint8_t before_room[GUARD];
    uint8_t room[ROOM];
    uint8_t before_answers[GUARD];
    uint32_t answers[FOUND];
    uint8_t before_places[GUARD];
    uint32_t places[FOUND];
    uint8_t before_numbers[GUARD];
    uint32_t numbers[MOST_NUMBERS];
    uint8_t before_more[GUARD];
    uint8_t more[MOST];
    uint8_t after[GUARD];
} lent, expected;

static size_t length;
static struct nk_index held;

/* an index that was answered, by the words of a line or by the one that was lent */
static void compare_index(const struct nk_index *got) {
    char *rest = follows("index");
    struct nk_index want = held;
    if (strcmp(rest, "same")) {
        memset(&want, 0, sizeof want);
        want.reads = number(&rest);
        for (int i = 0; i < KINDS; i++) want.kinds[i] = number(&rest);
        for (int i = 0; rest; i++) {
            if (i == PLACES) fail("too many places");
            want.places[i] = number(&rest);
        }
    }
    for (int i = 0; i < PLACES; i++) compare("a place", got->places[i], want.places[i]);
    for (int i = 0; i < KINDS; i++) compare("a kind", got->kinds[i], want.kinds[i]);
    compare("reads", got->reads, want.reads);
}

/* every byte of what is lent and of what lies between; a part is named where it is one that a call may be meant to write */
static void compare_lent(void) {
    if (memcmp(lent.room, expected.room, sizeof lent.room)) fail("another room");
    if (memcmp(lent.answers, expected.answers, sizeof lent.answers)) fail("other answers");
    if (memcmp(lent.places, expected.places, sizeof lent.places)) fail("other places");
    if (memcmp(&lent, &expected, sizeof lent)) fail("a byte was written that no call writes");
}

static void sequence(void) {
    memset(lent.room, 0, sizeof lent.room);
    memset(&held, 0, sizeof held);
    length = 0;
}

static void room(char *rest) {
    uint8_t fill = (uint8_t)number_up_to(&rest, UINT8_MAX);
    fill_room(lent.room, ROOM, fill);
    length = bytes(&rest, lent.room, ROOM);
}

static void put(char *rest) {
    const char *field = word(&rest);
    uint32_t at = number(&rest), value = number(&rest);
    if (!strcmp(field, "places") && at < PLACES) held.places[at] = value;
    else if (!strcmp(field, "kinds") && at < KINDS) held.kinds[at] = value;
    else if (!strcmp(field, "reads") && at == 0) held.reads = value;
    else fail("a field that is not known");
}

static void fresh(void) {
    memcpy(&expected, &lent, sizeof lent);
    struct nk_fresh got = nk_fresh_index(lent.room, length);
    char *rest = follows("answer");
    compare("the number", got.number, number(&rest));
    compare_index(&got.index);
    compare_lent();
    held = got.index;
}

static void append(char *rest) {
    size_t n = bytes(&rest, lent.more, MOST);
    memset(lent.more + n, 0x5a, MOST - n);
    memcpy(&expected, &lent, sizeof lent);
    struct nk_appended got = nk_append(lent.room, length, held, lent.more, n);
    rest = follows("answer");
    compare("the number", got.number, number(&rest));
    compare("the length", got.len, number_up_to(&rest, UINT64_MAX));
    compare_index(&got.index);
    rest = follows("room");
    if (!strcmp(rest, "more")) {
        if (length > ROOM || n > ROOM - length) fail("a trace that lays bytes past the room");
        memcpy(expected.room + length, lent.more, n);
    } else if (strcmp(rest, "same")) {
        fail("a room that is neither");
    }
    compare_lent();
    length = got.len;
    held = got.index;
}

static void look(char *rest) {
    size_t n = 0;
    if (strcmp(rest, "-"))
        for (; rest; n++) {
            if (n == MOST_NUMBERS) fail("too many numbers");
            lent.numbers[n] = number(&rest);
        }
    for (uint32_t i = 0; i < FOUND; i++) {
        lent.answers[i] = 0xa5000000 + i;
        lent.places[i] = 0x5a000000 + i;
    }
    memcpy(&expected, &lent, sizeof lent);
    uint32_t got = nk_look(lent.room, length, held, lent.numbers, n, lent.answers, lent.places);
    rest = follows("answer");
    compare("the number", got, number(&rest));
    rest = follows("found");
    if (strcmp(rest, "-"))
        for (size_t i = 0; rest; i++) {
            if (i == FOUND) fail("too many answers");
            expected.answers[i] = number(&rest);
            expected.places[i] = number(&rest);
            compare("an answer", lent.answers[i], expected.answers[i]);
            compare("a place", lent.places[i], expected.places[i]);
        }
    compare_lent();
}

/* Makes the call that a line names. 0 where it names none. */
static int call(char *rest) {
    const char *name = word(&rest);
    void (*with_words)(char *) = !strcmp(name, "append") ? append : !strcmp(name, "look") ? look : NULL;
    calls++;
    if (!strcmp(name, "fresh")) fresh();
    else if (with_words && rest) with_words(rest);
    else return 0;
    return 1;
}

int main(void) {
    unsigned long sequences = 0;
    memset(&lent, 0x5a, sizeof lent);
    sequence();
    while (next_line()) {
        if (line[0] == '#' || line[0] == 0) continue;
        if (!strncmp(line, "sequence ", 9)) {
            sequences++;
            sequence();
        } else if (!strncmp(line, "room ", 5)) {
            room(line + 5);
        } else if (!strncmp(line, "length ", 7)) {
            char *rest = line + 7;
            length = number_up_to(&rest, SIZE_MAX);
        } else if (!strncmp(line, "put ", 4)) {
            put(line + 4);
        } else if (!call(line)) {
            fail("a line that is not known");
        }
    }
    if (calls == 0) fail("no call in the trace");
    printf("%lu calls in %lu sequences followed, every byte of the room compared after each\n", calls, sequences);
    return 0;
}
