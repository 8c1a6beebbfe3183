/* Follows a trace of calls that the second program wrote (`oracle calls`; its first lines say what a trace looks like) and makes each
   call through the C face: every answer, every byte of the room, of the record and of the desk after it must be the trace's. A trace tells
   only the timers that changed, so the whole record is kept here as the trace tells it. Bytes around the record, the desk, each room and
   each issued number must stay. Prints how many calls were followed; the exit status is 1 at the first difference. */
#include <stdint.h>
#include <stdio.h>
#include <stdlib.h>
#include <string.h>

#include "nk.h"
#include "trace_lines.h"

enum { GUARD = 64, MOST = 1 << 17, PADDING_AT = 44 + 4 * NK_DEVICES, PADDING = 4 };

_Static_assert(offsetof(struct nk_keeper, firsts) == PADDING_AT + PADDING, "the padding lies before the first differences");

static struct {
    uint8_t before[GUARD];
    struct nk_keeper keeper;
    uint8_t after[GUARD];
} lent;

static struct {
    uint8_t before[GUARD];
    struct nk_desk desk;
    uint8_t after[GUARD];
} lent_desk;

static struct {
    uint8_t before[GUARD];
    struct nk_issued issued;
    uint8_t after[GUARD];
} handed;

/* the record and the desk as the trace tells them */
static struct nk_keeper told;
static struct nk_desk told_desk;

static uint8_t fed[MOST], rooms[GUARD + MOST + GUARD], *const room = rooms + GUARD, expected[MOST];

static uint8_t *padding(struct nk_keeper *k) { return (uint8_t *)k + PADDING_AT; }

static uint64_t number64(char **rest) { return number_up_to(rest, UINT64_MAX); }

static int64_t signed_in(const char *w) {
    char *end;
    int64_t n = strtoll(w, &end, 10);
    if (end == w || *end) fail("a word that is no number");
    return n;
}

static uint32_t word32(char **rest) {
    char *end;
    const char *w = word(rest);
    unsigned long n = strtoul(w, &end, 16);
    if (strlen(w) != 8 || *end) fail("a word that is not one of 32 bits");
    return (uint32_t)n;
}

static uint8_t byte(uint64_t n) {
    if (n > UINT8_MAX) fail("a number that its field cannot hold");
    return (uint8_t)n;
}

/* a new sequence: no keeper, and a pattern where no field is */
static void blank(struct nk_keeper *k) {
    memset(k, 0, sizeof *k);
    memset(padding(k), 0xa5, PADDING);
}

static void tell_ledger(char **rest) {
    struct nk_ledger *l = &told.ledger;
    l->input.count = number(rest);
    l->blocking.count = number(rest);
    l->input.spot.at = number(rest);
    l->blocking.spot.at = number(rest);
    l->input.spot.turn = number(rest);
    l->blocking.spot.turn = number(rest);
    l->value = number(rest);
    l->spill.tally = number(rest);
    l->spill.clock = number(rest);
    l->seeding.mark = number(rest);
    l->seeding.clock = number(rest);
}

static void tell_secret(char **rest) {
    for (int i = 0; i < NK_INPUT_WORDS; i++) told.input[i] = word32(rest);
    for (int i = 0; i < NK_BLOCKING_WORDS; i++) told.blocking[i] = word32(rest);
    for (int i = 0; i < NK_FAST_WORDS; i++) told.fast[i] = word32(rest);
    for (int i = 0; i < NK_GENERATOR_WORDS; i++) told.generator[i] = word32(rest);
}

static void tell_timer(char **rest) {
    uint64_t device = number_up_to(rest, NK_DEVICES - 1);
    told.clocks[device] = number(rest);
    told.firsts[device] = signed_in(word(rest));
    told.seconds[device] = signed_in(word(rest));
    told.came[device] = byte(number64(rest));
}

static void forget_timers(void) {
    memset(told.clocks, 0, sizeof told.clocks);
    memset(told.firsts, 0, sizeof told.firsts);
    memset(told.seconds, 0, sizeof told.seconds);
    memset(told.came, 0, sizeof told.came);
}

static void check_guards(const uint8_t *before, const uint8_t *after, const char *what) {
    for (int i = 0; i < GUARD; i++)
        if (before[i] != 0x5a || after[i] != 0x5a) fail(what);
}

/* all bytes of the record; the padding, which is no field, may be another after a call that changed the record: one that was done, or four
   draws of the desk that all repeated */
static void compare_record(uint32_t answered) {
    if (answered == NK_DONE || answered == NK_ALL_REPEATED) memcpy(padding(&told), padding(&lent.keeper), PADDING);
    if (memcmp(&lent.keeper, &told, sizeof told)) {
        const uint8_t *got = (const uint8_t *)&lent.keeper, *want = (const uint8_t *)&told;
        size_t at = 0;
        while (got[at] == want[at]) at++;
        printf("byte %zu of the record is %d, not %d\n", at, got[at], want[at]);
        fail("another record");
    }
    check_guards(lent.before, lent.after, "a byte beside the record was written");
}

static void put_field(struct nk_keeper *k, const char *field, uint64_t i, const char *value) {
    struct nk_ledger *l = &k->ledger;
    int64_t z = signed_in(value);
    uint32_t n = (uint32_t)z;
    int device = i < NK_DEVICES;
    if (!strcmp(field, "input-count")) l->input.count = n;
    else if (!strcmp(field, "blocking-count")) l->blocking.count = n;
    else if (!strcmp(field, "input-position")) l->input.spot.at = n;
    else if (!strcmp(field, "blocking-position")) l->blocking.spot.at = n;
    else if (!strcmp(field, "input-rotation")) l->input.spot.turn = n;
    else if (!strcmp(field, "blocking-rotation")) l->blocking.spot.turn = n;
    else if (!strcmp(field, "last-value")) l->value = n;
    else if (!strcmp(field, "tally")) l->spill.tally = n;
    else if (!strcmp(field, "last-spill")) l->spill.clock = n;
    else if (!strcmp(field, "seeded")) l->seeding.mark = n;
    else if (!strcmp(field, "seeding-clock")) l->seeding.clock = n;
    else if (!strcmp(field, "clock") && device) k->clocks[i] = n;
    else if (!strcmp(field, "d1") && device) k->firsts[i] = z;
    else if (!strcmp(field, "d2") && device) k->seconds[i] = z;
    else if (!strcmp(field, "came") && device) k->came[i] = byte((uint64_t)z);
    else if (!strcmp(field, "input-word") && i < NK_INPUT_WORDS) k->input[i] = n;
    else if (!strcmp(field, "blocking-word") && i < NK_BLOCKING_WORDS) k->blocking[i] = n;
    else if (!strcmp(field, "fast-word") && i < NK_FAST_WORDS) k->fast[i] = n;
    else if (!strcmp(field, "generator-word") && i < NK_GENERATOR_WORDS) k->generator[i] = n;
    else fail("a field that is not known, or an index that it has not");
}

static void put(char *rest) {
    const char *field = word(&rest);
    uint64_t i = number64(&rest);
    const char *value = word(&rest);
    put_field(&lent.keeper, field, i, value);
    put_field(&told, field, i, value);
}

/* Makes the call that a line names; `asked` is then the length of its room. 0 where the line names no call. */
static int call(char *rest, struct nk_answer *answer, size_t *asked) {
    const char *kind = word(&rest);
    struct nk_keeper *k = &lent.keeper;
    size_t n;
    *asked = 0;
    if (!strcmp(kind, "make")) {
        n = bytes(&rest, fed, MOST);
        *answer = nk_make(k, fed, n);
        if (answer->number == NK_DONE) forget_timers();
    } else if (!strcmp(kind, "device")) {
        uint32_t now = number(&rest), device = number(&rest);
        uint64_t stamp = number64(&rest);
        *answer = nk_event(k, device, now, stamp, number(&rest));
    } else if (!strcmp(kind, "interrupt")) {
        uint32_t now = number(&rest), which = number(&rest);
        uint64_t stamp = number64(&rest);
        *answer = nk_interrupt(k, now, which, stamp, number64(&rest));
    } else if (!strcmp(kind, "write")) {
        number(&rest);
        n = bytes(&rest, fed, MOST);
        *answer = nk_write(k, fed, n);
    } else if (!strcmp(kind, "seed")) {
        uint32_t now = number(&rest), credit = number(&rest);
        n = bytes(&rest, fed, MOST);
        *answer = nk_seed(k, now, fed, n, credit);
    } else if (!strcmp(kind, "generator")) {
        uint32_t now = number(&rest);
        *asked = bytes(&rest, room, MOST);
        memset(room + *asked, 0x5a, GUARD);
        *answer = nk_read(k, now, room, *asked);
    } else if (!strcmp(kind, "blocking")) {
        number(&rest);
        *asked = bytes(&rest, room, MOST);
        memset(room + *asked, 0x5a, GUARD);
        *answer = nk_blocking_read(k, room, *asked);
    } else {
        return 0;
    }
    return 1;
}

static void compare_answer(struct nk_answer got) {
    char *rest = follows("answer");
    struct nk_answer want = {0};
    want.number = number(&rest);
    want.delivered = number(&rest);
    want.blocks = number(&rest);
    want.compressions = number(&rest);
    want.added = number(&rest);
    if (memcmp(&got, &want, sizeof got)) {
        printf("answered %" PRIu32 " %" PRIu32 " %" PRIu32 " %" PRIu32 " %" PRIu32 "\n", got.number, got.delivered, got.blocks,
            got.compressions, got.added);
        fail("another answer");
    }
}

static void compare_room(size_t asked) {
    char *rest = follows("room");
    if (bytes(&rest, expected, MOST) != asked || memcmp(room, expected, asked)) fail("another room");
    for (int i = 0; i < GUARD; i++)
        if (rooms[i] != 0x5a || (asked && room[asked + (size_t)i] != 0x5a)) fail("a byte beside the room was written");
}

static void compare_keeper(uint32_t answered) {
    char *rest = follows("keeper");
    /* before a keeper is made, the record is to be as blank as it was */
    if (strcmp(rest, "none") && strcmp(rest, "same")) {
        tell_ledger(&rest);
        tell_secret(&rest);
        while (rest) tell_timer(&rest);
    }
    compare_record(answered);
}

/* the three lines that follow a call */
static void compare_all(struct nk_answer got, size_t asked) {
    compare_answer(got);
    compare_room(asked);
    compare_keeper(got.number);
}

/* The desk. A line may put it, and a desk that a call changed is told in the same words. */

static void tell_desk(char *rest) {
    told_desk.count = number(&rest);
    if (bytes(&rest, (uint8_t *)told_desk.numbers, sizeof told_desk.numbers) != sizeof told_desk.numbers)
        fail("another number of bytes than a desk has places for");
}

static void put_desk(char *rest) {
    tell_desk(rest);
    lent_desk.desk = told_desk;
}

static void compare_number(void) {
    char *rest = follows("number");
    if (bytes(&rest, expected, MOST) != NK_NUMBER_LENGTH || memcmp(handed.issued.number, expected, NK_NUMBER_LENGTH)) fail("another number");
    check_guards(handed.before, handed.after, "a byte beside the number was written");
}

static void compare_desk(void) {
    char *rest = follows("desk-after");
    if (strcmp(rest, "same")) tell_desk(rest);
    if (memcmp(&lent_desk.desk, &told_desk, sizeof told_desk)) fail("another desk");
    check_guards(lent_desk.before, lent_desk.after, "a byte beside the desk was written");
}

/* makes the call, and compares with the four lines that follow it */
static void issue(char *rest) {
    uint32_t now = number(&rest);
    size_t n = bytes(&rest, fed, MOST);
    handed.issued = nk_issue(&lent.keeper, &lent_desk.desk, now, fed, n);
    compare_answer(handed.issued.answer);
    compare_number();
    compare_keeper(handed.issued.answer.number);
    compare_desk();
}

int main(void) {
    unsigned long sequences = 0;
    memset(rooms, 0x5a, sizeof rooms);
    memset(&lent, 0x5a, sizeof lent);
    memset(&lent_desk, 0x5a, sizeof lent_desk);
    memset(&handed, 0x5a, sizeof handed);
    while (next_line()) {
        struct nk_answer answer;
        size_t asked;
        if (line[0] == '#' || line[0] == 0) continue;
        if (!strncmp(line, "sequence ", 9)) {
            sequences++;
            blank(&lent.keeper);
            blank(&told);
            memset(&lent_desk.desk, 0, sizeof lent_desk.desk);
            memset(&told_desk, 0, sizeof told_desk);
        } else if (!strncmp(line, "put ", 4)) {
            put(line + 4);
        } else if (!strncmp(line, "desk ", 5)) {
            put_desk(line + 5);
        } else if (!strncmp(line, "issue ", 6)) {
            calls++;
            issue(line + 6);
        } else if (call(line, &answer, &asked)) {
            calls++;
            compare_all(answer, asked);
        } else {
            fail("a line that is not known");
        }
    }
    if (calls == 0) fail("no call in the trace");
    printf("%lu calls in %lu sequences followed, every byte of record and desk compared after each\n", calls, sequences);
    return 0;
}
