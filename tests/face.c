/* The C test of the keeper: every call of nk.h through the archive, as a C program meets it.
 *
 * Each call is made twice from the same record, by the archive and by the plain keeper of bench/plain_keeper.c and bench/plain_desk.c, in
 * guarded memory; then every byte is compared. What the header promises is checked by itself as well, so that an error that both share
 * shows. The argument, if any, is the seed of the random calls. */
#include <inttypes.h>
#include <stdio.h>
#include <stdlib.h>
#include <string.h>

#include "../bench/plain.h"
#include "../bench/plain_desk.h"
#include "../bench/plain_keeper.h"
#include "../include/nk.h"
#include "chance.h"
#include "damage.h"
#include "groups.h"

enum { GUARD = 64, LONGEST = 5000, SHIFTS = 16, RANDOM_CALLS = 6000, RANDOM_NUMBERS = 3000 };

/* A call, of either side. */

enum kind { EVENT, INTERRUPT, WRITE, SEED, READ, BLOCKING_READ, MAKE, KINDS = MAKE };
static const char *const names[] = {"event", "interrupt", "write", "seed", "read", "blocking read", "make"};

struct call {
    enum kind kind;
    uint32_t device, now, number, value, credit;
    uint64_t stamp, address;
    size_t len;
};

/* The most work of one call, as the header has it. */
static const struct { uint32_t blocks, compressions; } most_work[] = {[EVENT] = {0, 32}, [INTERRUPT] = {0, 32}, [WRITE] = {0, 0},
    [SEED] = {0, 32}, [READ] = {65, 32}, [BLOCKING_READ] = {0, 130}, [MAKE] = {0, 0}};

static int is_read(enum kind kind) {
    return kind == READ || kind == BLOCKING_READ;
}

static struct nk_answer proved(struct nk_keeper *k, const struct call *c, uint8_t *bytes) {
    switch (c->kind) {
    case EVENT: return nk_event(k, c->device, c->now, c->stamp, c->value);
    case INTERRUPT: return nk_interrupt(k, c->now, c->number, c->stamp, c->address);
    case WRITE: return nk_write(k, bytes, c->len);
    case SEED: return nk_seed(k, c->now, bytes, c->len, c->credit);
    case READ: return nk_read(k, c->now, bytes, c->len);
    case BLOCKING_READ: return nk_blocking_read(k, bytes, c->len);
    default: return nk_make(k, bytes, c->len);
    }
}

static struct nk_answer plain(struct nk_keeper *k, const struct call *c, uint8_t *bytes) {
    switch (c->kind) {
    case EVENT: return plain_event(k, c->device, c->now, c->stamp, c->value);
    case INTERRUPT: return plain_interrupt(k, c->now, c->number, c->stamp, c->address);
    case WRITE: return plain_write(k, bytes, c->len);
    case SEED: return plain_seed(k, c->now, bytes, c->len, c->credit);
    case READ: return plain_read(k, c->now, bytes, c->len);
    case BLOCKING_READ: return plain_blocking_read(k, bytes, c->len);
    default: return plain_make(k, bytes, c->len);
    }
}

/* Lent memory between guards. Records, desks and rooms begin a little further on from call to call, records by 8 bytes, desks by 4 and
   rooms by 1, so that every alignment is met that the header allows. The second guard begins where the record, desk or room ends. */

enum { RECORD = GUARD + 8 * SHIFTS + (int)sizeof(struct nk_keeper) + GUARD, AREA = GUARD + SHIFTS + LONGEST + GUARD };
enum { DESK = GUARD + 4 * SHIFTS + (int)sizeof(struct nk_desk) + GUARD };
static uint8_t *record_as_lent, *record_proved, *record_plain, *area_as_lent, *area_proved, *area_plain;
static uint8_t *desk_as_lent, *desk_proved, *desk_plain;

static void lend_memory(void) {
    uint8_t **const records[] = {&record_as_lent, &record_proved, &record_plain};
    uint8_t **const areas[] = {&area_as_lent, &area_proved, &area_plain};
    uint8_t **const desks[] = {&desk_as_lent, &desk_proved, &desk_plain};
    for (int i = 0; i < 3; i++)
        if (!(*records[i] = malloc(RECORD)) || !(*areas[i] = malloc(AREA)) || !(*desks[i] = malloc(DESK))) {
            puts("FAILED: no memory");
            exit(1);
        }
}

/* The four bytes between clocks and firsts. */
enum { PADDING = offsetof(struct nk_keeper, clocks) + sizeof(uint32_t[NK_DEVICES]), PADDING_END = offsetof(struct nk_keeper, firsts) };

/* All fields alike; the padding may differ. */
static int same_fields(const struct nk_keeper *a, const struct nk_keeper *b) {
    const uint8_t *x = (const uint8_t *)a, *y = (const uint8_t *)b;
    return memcmp(x, y, PADDING) == 0 && memcmp(x + PADDING_END, y + PADDING_END, sizeof *a - PADDING_END) == 0;
}

static void fill_by_chance(uint8_t *bytes, size_t len) {
    for (size_t i = 0; i < len; i += sizeof(uint64_t)) {
        uint64_t eight = chance();
        memcpy(bytes + i, &eight, len - i < sizeof eight ? len - i : sizeof eight);
    }
}

static uint64_t counter(const struct nk_keeper *k) {
    return (uint64_t)k->generator[13] << 32 | k->generator[12];
}

/* New devices, by the records before and after a call: a kept event is counted for its device, up to three, and earns only where three came
   before it; nothing else is counted. */
static void check_came(const struct nk_keeper *k, const struct nk_keeper *l, const struct call *c, struct nk_answer a, const char *what) {
    uint8_t came[NK_DEVICES];
    memcpy(came, k->came, sizeof came);
    if (c->kind == EVENT && a.number == NK_DONE && c->device < NK_DEVICES && came[c->device] < 3) {
        came[c->device]++;
        check(l->ledger.input.count == k->ledger.input.count && a.compressions == 0, "%s: an event of a new device earns", what);
    }
    check(memcmp(came, l->came, sizeof came) == 0, "%s: how many events came is not counted as it should be", what);
}

/* The bytes that a seeding takes of a count: what it has, 32 at most, and none where it has not 16. */
static uint32_t seeding_takes(uint32_t count) {
    uint32_t have = count / 64;
    return have < 16 ? 0 : have < 32 ? have : 32;
}

/* What a credit was worth, by the records before and after a call: the count of the pool that was credited rose by so much, once what the
   same call took from it is put back, and no other count rose. That a seeding took some is told by the mark, and how many tens of bytes by
   the compressions; what a blocking read brought over, by the input count. */
static void check_added(const struct nk_keeper *k, const struct nk_keeper *l, const struct call *c, struct nk_answer a, const char *what) {
    if (a.number != NK_DONE || c->kind == MAKE) {
        check(a.added == 0, "%s: answered %u, and %u added", what, a.number, a.added);
        return;
    }
    const struct nk_ledger *before = &k->ledger, *after = &l->ledger;
    uint32_t input = before->input.count, blocking = before->blocking.count; /* the one that is credited becomes what crediting made it */
    uint32_t taken = 0, delivered = 0; /* bytes that left the input pool and the blocking pool */
    uint32_t bits = 0; /* the most that it can have been credited with */
    int unseeded = before->seeding.mark != 1;
    switch (c->kind) {
    case EVENT:
    case INTERRUPT:
    case SEED:
        bits = c->kind == EVENT ? 11 : c->kind == INTERRUPT ? 1 : c->credit;
        input += a.added;
        if (unseeded && after->seeding.mark == 1) {
            taken = seeding_takes(input);
            check(taken > 0, "%s: seeded, and %u added to %u are too little for that", what, a.added, before->input.count);
        } else if (unseeded) {
            check(a.added == 0 || input < 1024, "%s: not seeded, and %u added to %u", what, a.added, before->input.count);
        }
        break;
    case READ: taken = a.compressions > 0 ? seeding_takes(input) : 0; break;
    case BLOCKING_READ:
        taken = (before->input.count - after->input.count) / 64;
        check(taken == 0 || (taken >= 8 && taken <= 128), "%s: %u bytes are brought over", what, taken);
        bits = 8 * taken;
        blocking += a.added;
        delivered = a.delivered;
        break;
    default: break;
    }
    check(after->input.count + 64 * taken == input, "%s: %u added, %u bytes taken, and the input count goes from %u to %u", what, a.added,
        taken, before->input.count, after->input.count);
    check(after->blocking.count + 64 * delivered == blocking, "%s: %u added, %u delivered, and the blocking count goes from %u to %u", what,
        a.added, delivered, before->blocking.count, after->blocking.count);
    check(a.added <= 6 * bits, "%s: %u added, more than three quarters of %u bits, the most that was credited", what, a.added, bits);
    check(a.compressions == (taken + 9) / 10 * 8 + (delivered + 9) / 10 * 2,
        "%s: %u compressions for %u bytes of the input pool and %u of the blocking pool", what, a.compressions, taken, delivered);
}

/* One call by both sides, on bytes given or, for a read, on a room with random contents. The record becomes the archive's. */
static struct nk_answer try_on(struct nk_keeper *k, struct call c, const uint8_t *bytes) {
    static unsigned turn;
    size_t shift = turn % SHIFTS, here = GUARD + 8 * (turn / 3 % SHIFTS), past = here + sizeof *k;
    size_t len = c.kind == EVENT || c.kind == INTERRUPT ? 0 : c.len, from = GUARD + shift;
    char what[160];
    turn++;
    snprintf(what, sizeof what, "%s, len %zu, now %u, device %u, credit %u", names[c.kind], c.len, c.now, c.device, c.credit);

    fill_by_chance(area_as_lent, AREA);
    if (bytes) memcpy(area_as_lent + from, bytes, len);
    memset(record_as_lent, 0xb5, RECORD);
    memcpy(record_as_lent + here, k, sizeof *k);
    memcpy(area_proved, area_as_lent, AREA);
    memcpy(area_plain, area_as_lent, AREA);
    memcpy(record_proved, record_as_lent, RECORD);
    memcpy(record_plain, record_as_lent, RECORD);

    struct nk_keeper *l = (struct nk_keeper *)(void *)(record_proved + here), *p = (struct nk_keeper *)(void *)(record_plain + here);
    struct nk_answer a = proved(l, &c, area_proved + from);
    struct nk_answer b = plain(p, &c, area_plain + from);

    check(memcmp(&a, &b, sizeof a) == 0, "%s: the archive answers %u %u %u %u %u, plain C %u %u %u %u %u",
          what, a.number, a.delivered, a.blocks, a.compressions, a.added, b.number, b.delivered, b.blocks, b.compressions, b.added);
    if (!check(same_fields(l, p), "%s: the records differ", what)) {
        size_t i = 0;
        while (record_proved[here + i] == record_plain[here + i]) i++;
        if (faults <= SHOWN) printf("  %s:   the first byte that differs is %zu\n", group, i);
    }
    check(memcmp(area_proved, area_plain, AREA) == 0, "%s: the rooms differ", what);
    check(
        memcmp(record_proved, record_as_lent, here) == 0 && memcmp(record_proved + past, record_as_lent + past, RECORD - past) == 0,
        "%s: written outside the record", what);
    check(memcmp(area_proved, area_as_lent, from) == 0, "%s: written before the room", what);
    size_t delivered = is_read(c.kind) ? a.delivered : 0;
    if (check(delivered <= len, "%s: more delivered than the room holds", what))
        check(memcmp(area_proved + from + delivered, area_as_lent + from + delivered, AREA - from - delivered) == 0,
            "%s: written past the delivered bytes", what);
    if (a.number != NK_DONE) {
        check(memcmp(record_proved, record_as_lent, RECORD) == 0, "%s: refused, and the record changed", what);
        check(memcmp(area_proved, area_as_lent, AREA) == 0, "%s: refused, and the room changed", what);
        check(a.delivered == 0 && a.blocks == 0 && a.compressions == 0, "%s: refused, and work reported", what);
    }
    check_added(k, l, &c, a, what);
    check(memcmp((uint8_t *)l + PADDING, (uint8_t *)k + PADDING, PADDING_END - PADDING) == 0, "%s: the padding changed", what);
    check(a.blocks <= most_work[c.kind].blocks && a.compressions <= most_work[c.kind].compressions,
        "%s: %u blocks and %u compressions, more than the header allows", what, a.blocks, a.compressions);
    if (c.kind != MAKE) {
        uint64_t moved = counter(l) - counter(k);
        check(moved == a.blocks, "%s: the counter moved by %" PRIu64 ", and %u blocks are reported", what, moved, a.blocks);
        check(memcmp(l->generator + 14, k->generator + 14, 8) == 0, "%s: generator words 14 and 15 changed", what);
        check_came(k, l, &c, a, what);
    }
    memcpy(k, l, sizeof *k);
    return a;
}

static struct nk_answer try(struct nk_keeper *k, struct call c) {
    return try_on(k, c, NULL);
}

static uint32_t number_of(struct nk_keeper k, struct call c) {
    return try(&k, c).number;
}

static struct call read_of(size_t len, uint32_t now) {
    struct call c = {.kind = READ, .now = now, .len = len};
    return c;
}

static struct call blocking_read_of(size_t len) {
    struct call c = {.kind = BLOCKING_READ, .len = len};
    return c;
}

static struct call seed_of(size_t len, uint32_t credit, uint32_t now) {
    struct call c = {.kind = SEED, .len = len, .credit = credit, .now = now};
    return c;
}

static struct call write_of(size_t len) {
    struct call c = {.kind = WRITE, .len = len};
    return c;
}

static struct call event_of(uint32_t device, uint32_t now, uint32_t value) {
    struct call c = {.kind = EVENT, .device = device, .now = now, .value = value, .stamp = 0x0123456789abcdefu};
    return c;
}

static struct call interrupt_at(uint32_t now) {
    struct call c = {.kind = INTERRUPT, .now = now, .number = 7, .stamp = 0xfedcba9876543210u, .address = 0x08001234deadbeefu};
    return c;
}

/* The desk. */

static const uint8_t drill = NK_DRILL, live = NK_LIVE;
enum { DRAWS = 4, DRAWN = NK_NUMBER_LENGTH - 1 };

/* What so many reads of 15 bytes in a row draw, each behind its class. The record becomes what they leave; gives their compressions. */
static uint32_t draw(struct nk_keeper *k, uint32_t now, uint8_t class, uint8_t numbers[][NK_NUMBER_LENGTH], unsigned draws) {
    uint32_t compressions = 0;
    for (unsigned i = 0; i < draws; i++) {
        numbers[i][0] = class;
        struct nk_answer a = nk_read(k, now, numbers[i] + 1, DRAWN);
        check(a.number == NK_DONE && a.delivered == DRAWN && a.blocks == 1, "a read of 15 bytes: answered %u, %u blocks", a.number, a.blocks);
        compressions += a.compressions;
    }
    return compressions;
}

static int remembers(const struct nk_desk *d, const uint8_t number[NK_NUMBER_LENGTH]) {
    for (uint32_t i = 0; i < d->count && i < NK_REMEMBERED; i++)
        if (memcmp(d->numbers[i], number, NK_NUMBER_LENGTH) == 0) return 1;
    return 0;
}

/* A desk of so many as it has to be once a number was issued, place by place. */
static struct nk_desk with_newest(const struct nk_desk *d, const uint8_t number[NK_NUMBER_LENGTH]) {
    struct nk_desk after = *d;
    if (d->count < NK_REMEMBERED) {
        after.count = d->count + 1;
        memcpy(after.numbers[d->count], number, NK_NUMBER_LENGTH);
        return after;
    }
    for (int i = 0; i + 1 < NK_REMEMBERED; i++) memcpy(after.numbers[i], d->numbers[i + 1], NK_NUMBER_LENGTH);
    memcpy(after.numbers[NK_REMEMBERED - 1], number, NK_NUMBER_LENGTH);
    return after;
}

/* What the header says of an issue, by the records and desks before and after it: the record is as so many reads of 15 bytes leave it, all
   of which drew what the desk remembers, but for the one that is issued; and that one is then the desk's newest. So it is also seen that a
   repeat seeds nothing and costs one block. */
static void check_draws(const struct nk_keeper *k, const struct nk_keeper *l, const struct nk_desk *d, const struct nk_desk *e, uint32_t now,
    uint8_t class, const struct nk_issued *issued, const char *what) {
    static struct nk_keeper by_reads, by_one;
    uint8_t numbers[DRAWS][NK_NUMBER_LENGTH];
    uint32_t draws = issued->answer.blocks, repeats = issued->answer.number == NK_DONE ? draws - 1 : draws;
    if (!check(draws >= 1 && draws <= DRAWS, "%s: %u blocks", what, draws)) return;
    memcpy(&by_reads, k, sizeof by_reads);
    memcpy(&by_one, k, sizeof by_one);
    uint32_t compressions = draw(&by_reads, now, class, numbers, draws), first = draw(&by_one, now, class, numbers + draws - 1, 1);
    check(compressions == first && issued->answer.compressions == first, "%s: %u compressions, %u by a read", what,
        issued->answer.compressions, first);
    memcpy(by_one.generator, by_reads.generator, sizeof by_one.generator);
    check(same_fields(&by_one, &by_reads), "%s: a repeat moved more than the generator", what);
    check(same_fields(l, &by_reads), "%s: the record is not what %u reads leave", what, draws);

    memcpy(&by_reads, k, sizeof by_reads);
    draw(&by_reads, now, class, numbers, draws);
    for (uint32_t i = 0; i < repeats; i++) check(remembers(d, numbers[i]), "%s: draw %u is thrown away, and is not remembered", what, i + 1);
    if (issued->answer.number != NK_DONE) {
        check(draws == DRAWS, "%s: given up after %u draws", what, draws);
        return;
    }
    check(issued->answer.delivered == NK_NUMBER_LENGTH, "%s: %u delivered", what, issued->answer.delivered);
    check(memcmp(issued->number, numbers[repeats], NK_NUMBER_LENGTH) == 0, "%s: another number than was drawn", what);
    check(!remembers(d, issued->number), "%s: a number that the desk remembers is issued", what);
    struct nk_desk expected = with_newest(d, issued->number);
    check(memcmp(e, &expected, sizeof expected) == 0, "%s: the desk is not the one before it with the number at its end", what);
}

/* Where record, desk and class field begin in the lent memory of one issue. */
struct places { size_t record, desk, field; };

static void lend(const struct nk_keeper *k, const struct nk_desk *d, const uint8_t *field, size_t len, struct places at) {
    fill_by_chance(area_as_lent, AREA);
    if (len) memcpy(area_as_lent + at.field, field, len);
    memset(record_as_lent, 0xb5, RECORD);
    memcpy(record_as_lent + at.record, k, sizeof *k);
    fill_by_chance(desk_as_lent, DESK);
    memcpy(desk_as_lent + at.desk, d, sizeof *d);
    memcpy(area_proved, area_as_lent, AREA);
    memcpy(area_plain, area_as_lent, AREA);
    memcpy(record_proved, record_as_lent, RECORD);
    memcpy(record_plain, record_as_lent, RECORD);
    memcpy(desk_proved, desk_as_lent, DESK);
    memcpy(desk_plain, desk_as_lent, DESK);
}

/* Nothing beside record and desk was written, and nothing of the class field. */
static void check_beside(struct places at, const char *what) {
    size_t past = at.record + sizeof(struct nk_keeper), end = at.desk + sizeof(struct nk_desk);
    check(memcmp(record_proved, record_as_lent, at.record) == 0 &&
              memcmp(record_proved + past, record_as_lent + past, RECORD - past) == 0,
        "%s: written outside the record", what);
    check(memcmp(record_proved + at.record + PADDING, record_as_lent + at.record + PADDING, PADDING_END - PADDING) == 0,
        "%s: the padding changed", what);
    check(memcmp(desk_proved, desk_as_lent, at.desk) == 0 && memcmp(desk_proved + end, desk_as_lent + end, DESK - end) == 0,
        "%s: written outside the desk", what);
    check(memcmp(area_proved, area_as_lent, AREA) == 0, "%s: the class field, or something beside it, was written", what);
}

/* What the header says of every refusal: no number, the desk as it was, and, but for 14, the record as it was and no work. */
static void check_refused(const struct nk_issued *i, const char *what) {
    static const uint8_t no_number[NK_NUMBER_LENGTH];
    check(memcmp(i->number, no_number, NK_NUMBER_LENGTH) == 0 && i->answer.delivered == 0, "%s: refused, and a number is handed back", what);
    check(memcmp(desk_proved, desk_as_lent, DESK) == 0, "%s: refused, and the desk changed", what);
    if (i->answer.number == NK_ALL_REPEATED) return;
    check(memcmp(record_proved, record_as_lent, RECORD) == 0, "%s: refused, and the record changed", what);
    check(i->answer.blocks == 0 && i->answer.compressions == 0, "%s: refused, and work reported", what);
}

static void compare_issued(const struct nk_issued *i, const struct nk_issued *j, const char *what) {
    struct nk_answer a = i->answer, b = j->answer;
    check(memcmp(&a, &b, sizeof a) == 0, "%s: the archive answers %u %u %u %u %u, plain C %u %u %u %u %u",
          what, a.number, a.delivered, a.blocks, a.compressions, a.added, b.number, b.delivered, b.blocks, b.compressions, b.added);
    check(memcmp(i->number, j->number, NK_NUMBER_LENGTH) == 0, "%s: the numbers differ", what);
    check(a.added == 0, "%s: %u added", what, a.added);
    check(a.blocks <= 4 && a.compressions <= 32, "%s: %u blocks and %u compressions, more than the header allows", what, a.blocks,
        a.compressions);
}

/* A number is issued by both sides, from the same record, the same desk and the same class field. Record and desk become the archive's. */
static struct nk_issued try_issue(struct nk_keeper *k, struct nk_desk *d, uint32_t now, const uint8_t *field, size_t len) {
    static struct { uint8_t before[GUARD]; struct nk_issued issued; uint8_t after[GUARD]; } handed, guards;
    static unsigned turn;
    struct places at = {GUARD + 8 * (turn / 3 % SHIFTS), GUARD + 4 * (turn / 2 % SHIFTS), GUARD + turn % SHIFTS};
    char what[160];
    turn++;
    snprintf(what, sizeof what, "issue, class field of %zu (%02x), now %u, desk of %u", len, len ? field[0] : 0, now, d->count);
    lend(k, d, field, len, at);
    memset(&guards, 0xb5, sizeof guards);
    memcpy(&handed, &guards, sizeof handed);

    struct nk_keeper *l = (struct nk_keeper *)(void *)(record_proved + at.record);
    struct nk_keeper *p = (struct nk_keeper *)(void *)(record_plain + at.record);
    struct nk_desk *e = (struct nk_desk *)(void *)(desk_proved + at.desk), *q = (struct nk_desk *)(void *)(desk_plain + at.desk);
    handed.issued = nk_issue(l, e, now, area_proved + at.field, len);
    struct nk_issued by_plain = plain_issue(p, q, now, area_plain + at.field, len);

    compare_issued(&handed.issued, &by_plain, what);
    check(same_fields(l, p), "%s: the records differ", what);
    check(memcmp(desk_proved, desk_plain, DESK) == 0, "%s: the desks differ", what);
    check(memcmp(handed.before, guards.before, GUARD) == 0 && memcmp(handed.after, guards.after, GUARD) == 0,
        "%s: written beside the answer", what);
    check_beside(at, what);
    uint32_t number = handed.issued.answer.number;
    if (number != NK_DONE) check_refused(&handed.issued, what);
    if (number == NK_DONE || number == NK_ALL_REPEATED) check_draws(k, l, d, e, now, field[0], &handed.issued, what);
    memcpy(k, l, sizeof *k);
    memcpy(d, e, sizeof *d);
    return handed.issued;
}

static uint32_t number_issuing(struct nk_keeper k, struct nk_desk d, uint32_t now, const uint8_t *field, size_t len) {
    return try_issue(&k, &d, now, field, len).answer.number;
}

/* A desk that remembers so many numbers of both classes, all bytes random, those of the free places too. */
static void random_desk(struct nk_desk *d, uint32_t count) {
    fill_by_chance((uint8_t *)d->numbers, sizeof d->numbers);
    for (int i = 0; i < NK_REMEMBERED; i++)
        if (below(8)) d->numbers[i][0] = below(2) ? NK_DRILL : NK_LIVE;
    d->count = count;
}

static void make(struct nk_keeper *k) {
    uint8_t start[NK_START_LENGTH];
    for (int i = 0; i < NK_START_LENGTH; i++) start[i] = (uint8_t)(3 * i + 1);
    memset(k, 0, sizeof *k);
    check(nk_make(k, start, sizeof start).number == NK_DONE, "a keeper is not made");
}

/* A made keeper with both pools well filled, seeded at clock 5,000, and no device new. */
static void make_ready(struct nk_keeper *k) {
    uint8_t noise[512];
    make(k);
    for (size_t i = 0; i < sizeof noise; i++) noise[i] = (uint8_t)(i * 37 + 11);
    for (int i = 0; i < 2; i++) check(nk_seed(k, 5000, noise, sizeof noise, 4096).number == NK_DONE, "a seed is refused");
    k->ledger.blocking.count = 4096;
    for (int i = 0; i < NK_BLOCKING_WORDS; i++) k->blocking[i] = 0x9e3779b9u * (uint32_t)(i + 1);
    memset(k->came, 3, sizeof k->came);
}

/* Three kept events of a new device, all at clock 0: its timer is a fresh one's but for how many came. The next event compares its clock
   with 0, and is the first that may earn. */
static void let_three_come(struct nk_keeper *k, uint32_t device) {
    for (uint32_t i = 1; i <= 3; i++) check(try(k, event_of(device, 0, i)).number == NK_DONE, "event %u of a new device is refused", i);
}

static const uint32_t constants[4] = {0x61707865, 0x3320646e, 0x79622d32, 0x6b206574};

/* Any record in range: every field random, edges often, and most devices not new, so that their events earn. */
static void random_record(struct nk_keeper *k) {
    for (int i = 0; i < NK_INPUT_WORDS; i++) k->input[i] = (uint32_t)chance();
    for (int i = 0; i < NK_BLOCKING_WORDS; i++) k->blocking[i] = (uint32_t)chance();
    for (int i = 0; i < NK_FAST_WORDS; i++) k->fast[i] = (uint32_t)chance();
    for (int i = 0; i < NK_GENERATOR_WORDS; i++) k->generator[i] = i < 4 ? constants[i] : (uint32_t)chance();
    if (below(4) == 0) k->generator[12] = 0xffffffffu - below(70);
    if (below(8) == 0) k->generator[12] = 0xfffffffeu, k->generator[13] = 0xffffffffu;
    struct nk_ledger *l = &k->ledger;
    l->input.count = below(3) ? below(32769) : below(2) ? 32768 - below(4) : below(1200);
    l->blocking.count = below(3) ? below(8193) : below(2) ? 8192 - below(4) : below(130);
    l->input.spot.at = below(128);
    l->input.spot.turn = below(32);
    l->blocking.spot.at = below(32);
    l->blocking.spot.turn = below(32);
    l->value = below(4);
    l->spill.tally = below(2) ? below(64) : 63;
    l->spill.clock = (uint32_t)chance();
    l->seeding.mark = below(4) ? 1 : below(2) ? 0 : (uint32_t)chance();
    l->seeding.clock = (uint32_t)chance();
    for (int i = 0; i < NK_DEVICES; i++) {
        k->clocks[i] = (uint32_t)chance();
        k->firsts[i] = below(4) ? (int32_t)chance() : below(2) ? INT32_MIN : INT32_MAX;
        k->seconds[i] = below(4) ? (int64_t)(chance() >> 32) - (int64_t)(chance() >> 32) : below(2) ? -4294967295 : 4294967295;
        k->came[i] = below(4) ? 3 : (uint8_t)below(4);
    }
}

/* One number of a device's timer at the very edge of its range. */
enum { TIMER_EDGES = 6 };
static void timer_edge(struct nk_keeper *k, uint32_t device, unsigned way) {
    switch (way) {
    case 0: k->firsts[device] = INT32_MIN; break;
    case 1: k->firsts[device] = INT32_MAX; break;
    case 2: k->seconds[device] = -4294967295; break;
    case 3: k->seconds[device] = 4294967295; break;
    case 4: k->came[device] = 0; break;
    default: k->came[device] = 3; break;
    }
}

/* One field at the very edge of its range; 0 where there is no such way. */
static int edge(struct nk_keeper *k, unsigned way) {
    struct nk_ledger *l = &k->ledger;
    switch (way) {
    case 0: l->input.count = 32768; return 1;
    case 1: l->input.count = 0; return 1;
    case 2: l->blocking.count = 8192; return 1;
    case 3: l->blocking.count = 0; return 1;
    case 4: l->input.spot.at = 127; return 1;
    case 5: l->blocking.spot.at = 31; return 1;
    case 6: l->input.spot.turn = 31; return 1;
    case 7: l->blocking.spot.turn = 31; return 1;
    case 8: l->spill.tally = 63; return 1;
    case 9: l->seeding.mark = 0; return 1;
    case 10: l->seeding.mark = 2; return 1;
    case 11: l->seeding.mark = UINT32_MAX; return 1;
    case 12: l->seeding.mark = 0x100; return 1;
    case 13: memset(k->generator + 4, 0xff, 48); return 1;
    case 14: memset(k->input, 0xff, sizeof k->input); return 1;
    case 15: memset(k->clocks, 0xff, sizeof k->clocks); return 1;
    default: way -= 16;
    }
    if (way < SOME_DEVICES * TIMER_EDGES) { timer_edge(k, some_devices[way / TIMER_EDGES], way % TIMER_EDGES); return 1; }
    return 0;
}

/* The groups. */

#define SIZE(type, size) check(sizeof(type) == (size), #type " has %zu bytes", sizeof(type))
#define OFFSET(type, field, at) check(offsetof(type, field) == (at), #field " lies at %zu", offsetof(type, field))

/* An event of a device moves that device's timer, as it lies in the record of C, and no other. */
static void check_own_timer(uint32_t d) {
    static struct nk_keeper k, timers;
    make(&k);
    nk_event(&k, d, 1000 + d, 1, 99);
    timers.clocks[d] = 1000 + d;
    timers.firsts[d] = timers.seconds[d] = 1000 + d;
    timers.came[d] = 1;
    check(memcmp(k.clocks, timers.clocks, sizeof k.clocks) == 0, "device %u: clocks", d);
    check(memcmp(k.firsts, timers.firsts, sizeof k.firsts) == 0, "device %u: firsts", d);
    check(memcmp(k.seconds, timers.seconds, sizeof k.seconds) == 0, "device %u: seconds", d);
    check(memcmp(k.came, timers.came, sizeof k.came) == 0, "device %u: came", d);
    timers.clocks[d] = 0;
    timers.firsts[d] = timers.seconds[d] = 0;
    timers.came[d] = 0;
}

static void layout(void) {
    begin("sizes and offsets");
    SIZE(struct nk_spot, 8);
    SIZE(struct nk_gauge, 12);
    SIZE(struct nk_spill, 8);
    SIZE(struct nk_seeding, 8);
    SIZE(struct nk_ledger, 44);
    SIZE(struct nk_keeper, 22272);
    SIZE(struct nk_answer, 20);
    SIZE(struct nk_desk, 1028);
    SIZE(struct nk_issued, 36);
    check(_Alignof(struct nk_keeper) == 8, "struct nk_keeper is aligned at %zu", _Alignof(struct nk_keeper));
    check(_Alignof(struct nk_desk) == 4, "struct nk_desk is aligned at %zu", _Alignof(struct nk_desk));
    check(_Alignof(struct nk_issued) == 4, "struct nk_issued is aligned at %zu", _Alignof(struct nk_issued));
    OFFSET(struct nk_keeper, ledger.input.count, 0);
    OFFSET(struct nk_keeper, ledger.input.spot.at, 4);
    OFFSET(struct nk_keeper, ledger.input.spot.turn, 8);
    OFFSET(struct nk_keeper, ledger.blocking.count, 12);
    OFFSET(struct nk_keeper, ledger.blocking.spot.at, 16);
    OFFSET(struct nk_keeper, ledger.blocking.spot.turn, 20);
    OFFSET(struct nk_keeper, ledger.value, 24);
    OFFSET(struct nk_keeper, ledger.spill.tally, 28);
    OFFSET(struct nk_keeper, ledger.spill.clock, 32);
    OFFSET(struct nk_keeper, ledger.seeding.mark, 36);
    OFFSET(struct nk_keeper, ledger.seeding.clock, 40);
    OFFSET(struct nk_keeper, clocks, 44);
    OFFSET(struct nk_keeper, firsts, 4144);
    OFFSET(struct nk_keeper, seconds, 12336);
    OFFSET(struct nk_keeper, came, 20528);
    OFFSET(struct nk_keeper, input, 21552);
    OFFSET(struct nk_keeper, blocking, 22064);
    OFFSET(struct nk_keeper, fast, 22192);
    OFFSET(struct nk_keeper, generator, 22208);
    OFFSET(struct nk_answer, number, 0);
    OFFSET(struct nk_answer, delivered, 4);
    OFFSET(struct nk_answer, blocks, 8);
    OFFSET(struct nk_answer, compressions, 12);
    OFFSET(struct nk_answer, added, 16);
    OFFSET(struct nk_desk, count, 0);
    OFFSET(struct nk_desk, numbers, 4);
    OFFSET(struct nk_desk, numbers[1], 20);
    OFFSET(struct nk_desk, numbers[63][15], 1027);
    OFFSET(struct nk_issued, answer, 0);
    OFFSET(struct nk_issued, number, 20);
    check(NK_DRILL == 0x44 && NK_LIVE == 0x4c, "the classes");
    check(NK_NO_SUCH_CLASS == 13 && NK_ALL_REPEATED == 14, "the numbers of an issue's own refusals");

    /* the archive's own layout: each field is told from its neighbours by what one call does to it */
    struct nk_keeper k;
    make(&k);
    nk_event(&k, 0, 77, 1, 99);
    check(k.ledger.value == 99, "the value of device 0 is not in the ledger");
    for (uint32_t d = 0; d < NK_DEVICES; d++) check_own_timer(d);
    make(&k);
    nk_interrupt(&k, 900, 1, 2, 3);
    check(k.ledger.spill.tally == 1 && k.ledger.spill.clock == 0, "the tally after one interrupt");
    nk_interrupt(&k, 1001, 1, 2, 3);
    check(k.ledger.spill.tally == 0 && k.ledger.spill.clock == 1001 && k.ledger.input.count == 6, "the marks after a spill");
    check(k.ledger.input.spot.at == 112 && k.ledger.input.spot.turn == 16 * 7 % 32, "the input pool's spot after 16 bytes");
    check(k.ledger.blocking.spot.at == 0 && k.ledger.blocking.spot.turn == 0, "the blocking pool's spot before anything");
    end();
}

static void yardsticks(void) {
    begin("the plain ciphers, by their published vectors");
    static const uint32_t digest[5] = {0xa9993e36, 0x4706816a, 0xba3e2571, 0x7850c26c, 0x9cd0d89d};
    uint32_t hash[5] = {0x67452301, 0xefcdab89, 0x98badcfe, 0x10325476, 0xc3d2e1f0}, message[16] = {0x61626380};
    message[15] = 24;
    plain_sha1(hash, message);
    check(memcmp(hash, digest, sizeof hash) == 0, "SHA-1 of abc");

    /* RFC 7539, 2.3.2: also the first 64 bytes of a generator that was started from its key, counter and nonce */
    static const uint8_t block[64] = {0x10, 0xf1, 0xe7, 0xe4, 0xd1, 0x3b, 0x59, 0x15, 0x50, 0x0f, 0xdd, 0x1f, 0xa3, 0x20, 0x71,
        0xc4, 0xc7, 0xd1, 0xf4, 0xc7, 0x33, 0xc0, 0x68, 0x03, 0x04, 0x22, 0xaa, 0x9a, 0xc3, 0xd4, 0x6c, 0x4e, 0xd2, 0x82, 0x64,
        0x46, 0x07, 0x9f, 0xaa, 0x09, 0x14, 0xc2, 0xd7, 0x05, 0xd9, 0x8b, 0x02, 0xa2, 0xb5, 0x12, 0x9c, 0xd1, 0xde, 0x16, 0x4e,
        0xb9, 0xcb, 0xd0, 0x83, 0xe8, 0xa2, 0x50, 0x3c, 0x4e};
    static const uint8_t tail[16] = {1, 0, 0, 0, 0, 0, 0, 9, 0, 0, 0, 0x4a};
    uint8_t start[NK_START_LENGTH], out[64];
    for (uint8_t i = 0; i < 32; i++) start[i] = i;
    memcpy(start + 32, tail, sizeof tail);
    struct nk_keeper k = {0};
    check(nk_make(&k, start, sizeof start).number == NK_DONE, "a keeper is not made");
    plain_chacha(k.generator, out);
    check(memcmp(out, block, 64) == 0, "the plain ChaCha20 block");
    k.ledger.seeding.mark = 1;
    struct nk_answer a = nk_read(&k, 0, out, 64);
    check(a.number == NK_DONE && a.delivered == 64 && a.blocks == 2, "a read of 64 bytes");
    check(memcmp(out, block, 64) == 0, "the keeper's first block is not the RFC's");
    end();
}

static void making(void) {
    begin("making");
    static const size_t wrong[] = {0, 1, 16, 47, 49, 64, 96, 4096, 4097};
    struct nk_keeper k, before;
    uint8_t start[NK_START_LENGTH];
    for (int i = 0; i < 20; i++) {
        /* out of any bytes, also out of a record that is out of range */
        fill_by_chance((uint8_t *)&k, sizeof k);
        memcpy(&before, &k, sizeof k);
        for (size_t w = 0; w < sizeof wrong / sizeof *wrong; w++) {
            struct call c = {.kind = MAKE, .len = wrong[w]};
            struct nk_answer a = try(&k, c);
            check(a.number == NK_START_NOT_48, "a start of %zu bytes is answered %u", wrong[w], a.number);
            check(memcmp(&k, &before, sizeof k) == 0, "a start of %zu bytes changed the record", wrong[w]);
        }
        for (int j = 0; j < NK_START_LENGTH; j++) start[j] = (uint8_t)(chance() >> 40);
        struct call c = {.kind = MAKE, .len = NK_START_LENGTH};
        struct nk_answer a = try_on(&k, c, start);
        check(a.number == NK_DONE && a.delivered == 0 && a.blocks == 0 && a.compressions == 0 && a.added == 0, "a making is answered %u",
            a.number);
        struct nk_keeper fresh;
        memset(&fresh, 0, sizeof fresh);
        memcpy(fresh.generator, constants, sizeof constants);
        for (int j = 0; j < 12; j++)
            fresh.generator[4 + j] = start[4 * j] | (uint32_t)start[4 * j + 1] << 8 | (uint32_t)start[4 * j + 2] << 16 |
                                     (uint32_t)start[4 * j + 3] << 24;
        check(same_fields(&k, &fresh), "the record made is not the fresh one");
    }
    end();
}

/* The first that there is not, and ones that would be there if they were cut to 10, 16 or 31 bits. */
static const uint32_t no_devices[] = {1024, 1025, 1039, 1279, 1280, 2047, 2048, 65535, 65536, 65552, 66559, 0x80000000, 0x80000010,
    0xfffffc00, UINT32_MAX};

static void refusals(void) {
    begin("refusals, and reads of length 0");
    struct nk_keeper fresh, ready, k;
    make(&fresh);
    make_ready(&ready);

    /* 1, at its exact thresholds */
    for (uint32_t blocking = 62; blocking <= 65; blocking++)
        for (uint32_t input = 510; input <= 513; input++) {
            static const size_t lens[] = {1, 2, 7, 8, 9, 128, 129, 4096};
            for (size_t i = 0; i < sizeof lens / sizeof *lens; i++) {
                k = ready;
                k.ledger.blocking.count = blocking;
                k.ledger.input.count = input;
                struct nk_answer a = try(&k, blocking_read_of(lens[i]));
                int blocks = blocking < 64 && input < 512;
                check(a.number == (blocks ? NK_WOULD_BLOCK : NK_DONE), "counts %u and %u, blocking read of %zu: %u", input,
                    blocking, lens[i], a.number);
                check(blocks ? a.delivered == 0 : a.delivered >= 1, "counts %u and %u, blocking read of %zu delivers %u", input,
                    blocking, lens[i], a.delivered);
            }
        }
    check(number_of(fresh, blocking_read_of(1)) == NK_WOULD_BLOCK, "a blocking read of a fresh keeper");

    /* 2, by every mark but 1 */
    static const uint32_t marks[] = {0, 2, 3, 0x80, 0x100, 0x101, 0x10001, 0x1000000, 0x1000001, 0x80000001, 0xfffffffe, 0xffffffff};
    check(number_of(fresh, read_of(4, 0)) == NK_UNSEEDED, "a read of a fresh keeper");
    for (size_t i = 0; i < sizeof marks / sizeof *marks; i++) {
        k = ready;
        k.ledger.seeding.mark = marks[i];
        check(number_of(k, read_of(1, 5000)) == NK_UNSEEDED, "a read with the mark %u", marks[i]);
        check(number_of(k, read_of(4096, 400000)) == NK_UNSEEDED, "a long read with the mark %u, a reseed overdue", marks[i]);
        check(number_of(k, read_of(0, 5000)) == NK_DONE, "a read of 0 with the mark %u", marks[i]);
        check(number_of(k, read_of(4097, 5000)) == NK_TOO_LONG, "a read of 4,097 with the mark %u", marks[i]);
        struct nk_answer a = try(&k, seed_of(32, 1, 6000));
        check(a.number == NK_DONE && k.ledger.seeding.mark == 1 && k.ledger.seeding.clock == 6000, "the mark %u is not seeded by a seed",
            marks[i]);
    }
    check(number_of(ready, read_of(4, 5000)) == NK_DONE, "a read of a seeded keeper");

    /* 3, before 5, 1 and 2 */
    static const size_t lengths[] = {4097, 4098, 4999, LONGEST};
    for (size_t i = 0; i < sizeof lengths / sizeof *lengths; i++) {
        check(number_of(ready, write_of(lengths[i])) == NK_TOO_LONG, "a write of %zu", lengths[i]);
        check(number_of(ready, seed_of(lengths[i], 0, 0)) == NK_TOO_LONG, "a seed of %zu", lengths[i]);
        check(number_of(ready, seed_of(lengths[i], UINT32_MAX, 0)) == NK_TOO_LONG, "a seed of %zu with too much credit", lengths[i]);
        check(number_of(ready, read_of(lengths[i], 5000)) == NK_TOO_LONG, "a read of %zu", lengths[i]);
        check(number_of(fresh, read_of(lengths[i], 0)) == NK_TOO_LONG, "a read of %zu, unseeded", lengths[i]);
        check(number_of(ready, blocking_read_of(lengths[i])) == NK_TOO_LONG, "a blocking read of %zu", lengths[i]);
        check(number_of(fresh, blocking_read_of(lengths[i])) == NK_TOO_LONG, "a blocking read of %zu, pools empty", lengths[i]);
    }
    check(number_of(ready, write_of(4096)) == NK_DONE && number_of(ready, write_of(0)) == NK_DONE, "writes of 4,096 and of 0");

    /* 4 */
    for (size_t i = 0; i < sizeof no_devices / sizeof *no_devices; i++)
        check(number_of(ready, event_of(no_devices[i], 9, 5)) == NK_NO_SUCH_DEVICE, "device %u", no_devices[i]);
    for (uint32_t d = 1; d < NK_DEVICES; d++) check(number_of(ready, event_of(d, 9, 0)) == NK_DONE, "device %u", d);

    /* 5 */
    static const size_t seeds[] = {0, 1, 2, 31, 32, 4095, 4096};
    for (size_t i = 0; i < sizeof seeds / sizeof *seeds; i++) {
        uint32_t most = 8 * (uint32_t)seeds[i];
        check(number_of(ready, seed_of(seeds[i], most, 0)) == NK_DONE, "a seed of %zu with its highest credit", seeds[i]);
        check(number_of(ready, seed_of(seeds[i], most + 1, 0)) == NK_CREDIT_TOO_HIGH, "a seed of %zu with a bit more", seeds[i]);
        check(number_of(ready, seed_of(seeds[i], UINT32_MAX, 0)) == NK_CREDIT_TOO_HIGH, "a seed of %zu with the most credit", seeds[i]);
        check(number_of(ready, seed_of(seeds[i], 0x20000000, 0)) == NK_CREDIT_TOO_HIGH,
            "a seed of %zu with a credit that is 0 in eighths", seeds[i]);
    }

    /* 7: device 0 alone, against the value last kept */
    k = fresh;
    check(try(&k, event_of(0, 5, 0)).number == NK_REPEATED, "value 0 on a fresh keeper");
    check(try(&k, event_of(0, 5, 8)).number == NK_DONE, "value 8");
    check(try(&k, event_of(0, 6, 8)).number == NK_REPEATED, "value 8 again");
    check(try(&k, event_of(3, 6, 8)).number == NK_DONE, "value 8 on device 3");
    check(try(&k, event_of(3, 7, 8)).number == NK_DONE, "value 8 on device 3 again");
    check(try(&k, event_of(3, 7, 9)).number == NK_DONE && k.ledger.value == 8, "device 3 leaves the value of device 0");
    check(try(&k, event_of(1024, 7, 8)).number == NK_NO_SUCH_DEVICE, "device 1,024");
    check(try(&k, event_of(256, 7, 8)).number == NK_DONE && try(&k, event_of(256, 7, 8)).number == NK_DONE, "value 8 on device 256, twice");
    check(try(&k, event_of(0, 7, 8)).number == NK_REPEATED, "value 8 once more");
    check(try(&k, event_of(0, 7, 0)).number == NK_DONE, "value 0 after 8");
    check(try(&k, event_of(0, 7, 8)).number == NK_DONE, "value 8 after 0");

    /* length 0 */
    struct nk_keeper *const both[2] = {&fresh, &ready};
    for (int i = 0; i < 2; i++) {
        k = *both[i];
        check(try(&k, read_of(0, 5000)).number == NK_DONE, "a read of 0");
        check(try(&k, read_of(0, 400000)).number == NK_DONE, "a read of 0, a reseed overdue");
        check(try(&k, blocking_read_of(0)).number == NK_DONE, "a blocking read of 0");
        check(same_fields(&k, both[i]), "reads of 0 changed the record");
    }
    end();
}

/* Calls to try on a damaged record: good ones, and ones that would be refused for another reason. */
static const struct call at_damage[] = {
    {.kind = EVENT, .device = 0, .now = 9000, .value = 5, .stamp = 77},
    {.kind = EVENT, .device = 1023, .now = 9000, .value = 5, .stamp = 77},
    {.kind = EVENT, .device = 1024, .now = 9000},
    {.kind = EVENT, .device = 0, .value = 0},
    {.kind = INTERRUPT, .now = 900, .number = 3, .stamp = 77, .address = 88},
    {.kind = INTERRUPT, .now = 9000, .number = 3, .stamp = 77, .address = 88},
    {.kind = WRITE, .len = 40},
    {.kind = WRITE, .len = 0},
    {.kind = WRITE, .len = 4097},
    {.kind = SEED, .len = 40, .credit = 300, .now = 9000},
    {.kind = SEED, .len = 0},
    {.kind = SEED, .len = 4097},
    {.kind = SEED, .len = 1, .credit = 9},
    {.kind = READ, .len = 40, .now = 9000},
    {.kind = READ, .len = 40, .now = 900000},
    {.kind = READ, .len = 0},
    {.kind = READ, .len = 4097},
    {.kind = BLOCKING_READ, .len = 40},
    {.kind = BLOCKING_READ, .len = 128},
    {.kind = BLOCKING_READ, .len = 0},
    {.kind = BLOCKING_READ, .len = 4097},
};

/* A damaged record is answered 17 by every call, and left as it was. */
static void check_damaged(const struct nk_keeper *damaged, unsigned way) {
    for (size_t i = 0; i < sizeof at_damage / sizeof *at_damage; i++) {
        const char *name = names[at_damage[i].kind];
        struct nk_keeper k = *damaged;
        struct nk_answer a = try(&k, at_damage[i]);
        check(a.number == NK_OUT_OF_RANGE, "damage %u, %s of %zu: answered %u", way, name, at_damage[i].len, a.number);
        check(same_fields(&k, damaged), "damage %u, %s of %zu: the record changed", way, name, at_damage[i].len);
    }
    static const uint8_t no_classes[2] = {NK_DRILL, NK_LIVE};
    static const struct { const uint8_t *field; size_t len; uint32_t count, now; } issues[] = {
        {&drill, 1, 0, 9000}, {&live, 1, NK_REMEMBERED, 900000}, {no_classes, 2, 3, 9000}, {&drill, 0, 0, 9000}, {&drill, 1, 65, 9000}};
    for (size_t i = 0; i < sizeof issues / sizeof *issues; i++) {
        struct nk_desk d;
        random_desk(&d, issues[i].count);
        uint32_t number = number_issuing(*damaged, d, issues[i].now, issues[i].field, issues[i].len);
        check(number == NK_OUT_OF_RANGE, "damage %u, issue %zu: answered %u", way, i, number);
    }
}

static void out_of_range(void) {
    begin("out of range, one field at a time, at every call");
    struct nk_keeper ready, k;
    make_ready(&ready);
    for (unsigned unseeded = 0; unseeded < 2; unseeded++)
        for (unsigned way = 0; way < DAMAGES; way++) {
            k = ready;
            k.ledger.seeding.mark = !unseeded;
            check(damage(&k, way), "there is no damage %u", way);
            check_damaged(&k, way);
        }
    check(!damage(&k, DAMAGES), "there are more ways to be out of range than are tried");
    end();

    begin("at the edge of the range, one field at a time, at every call");
    for (unsigned way = 0;; way++) {
        struct nk_keeper on_edge = ready;
        if (!edge(&on_edge, way)) break;
        for (size_t i = 0; i < sizeof at_damage / sizeof *at_damage; i++) {
            k = on_edge;
            struct nk_answer a = try(&k, at_damage[i]);
            check(a.number != NK_OUT_OF_RANGE, "edge %u, %s of %zu: answered 17", way, names[at_damage[i].kind], at_damage[i].len);
            check(number_of(k, write_of(0)) == NK_DONE, "edge %u, %s of %zu: out of range afterwards", way,
                names[at_damage[i].kind], at_damage[i].len);
        }
        struct nk_desk d;
        random_desk(&d, NK_REMEMBERED);
        k = on_edge;
        check(try_issue(&k, &d, 900000, &live, 1).answer.number != NK_OUT_OF_RANGE, "edge %u, issue: answered 17", way);
        check(number_of(k, write_of(0)) == NK_DONE, "edge %u, issue: out of range afterwards", way);
        /* so that each timer that is at an edge takes part in a difference at the end of its range */
        for (unsigned j = 0; j < SOME_DEVICES; j++) {
            static const uint32_t steps[] = {0, 1, 0x7fffffff, 0x80000000, 0xffffffff};
            uint32_t d = some_devices[j];
            for (size_t i = 0; i < sizeof steps / sizeof *steps; i++) {
                k = on_edge;
                check(number_of(k, event_of(d, k.clocks[d] + steps[i], 5)) == NK_DONE, "edge %u, device %u", way, d);
            }
        }
    }
    end();
}

/* All devices' timers, one at a time. That is many calls: they are made straight, and what they leave is compared as a whole. */

static struct nk_keeper lent;    /* what the calls are made on */
static struct nk_keeper as_lent; /* the same, for them to leave as it is */

/* One call of each kind, that would be done on a record in range; the event is of the device whose timer it is about. */
static const struct call each_call[KINDS] = {
    {.kind = EVENT, .now = 9000, .value = 5},
    {.kind = INTERRUPT, .now = 9000},
    {.kind = WRITE, .len = 40},
    {.kind = SEED, .len = 40, .credit = 300, .now = 9000},
    {.kind = READ, .len = 40, .now = 9000},
    {.kind = BLOCKING_READ, .len = 40},
};

static void refused_by_an_issue(uint32_t device, unsigned way) {
    static const struct nk_issued refused = {{NK_OUT_OF_RANGE, 0, 0, 0, 0}, {0}};
    static struct nk_desk desk, desk_as_it_was;
    struct nk_issued i = nk_issue(&lent, &desk, 9000, &drill, 1);
    check(memcmp(&i, &refused, sizeof i) == 0, "device %u, way %u, issue: answered %u", device, way, i.answer.number);
    check(memcmp(&desk, &desk_as_it_was, sizeof desk) == 0, "device %u, way %u, issue: the desk changed", device, way);
    if (!check(memcmp(&lent, &as_lent, sizeof lent) == 0, "device %u, way %u, issue: the record changed", device, way))
        memcpy(&lent, &as_lent, sizeof lent);
}

static void refused_by_each_call(uint32_t device, unsigned way) {
    static const struct nk_answer refused = {NK_OUT_OF_RANGE, 0, 0, 0, 0};
    static uint8_t room[64], room_as_lent[64];
    for (unsigned i = 0; i < KINDS; i++) {
        struct call c = each_call[i];
        c.device = device;
        memset(room_as_lent, (int)(0x31 + device), sizeof room);
        memcpy(room, room_as_lent, sizeof room);
        struct nk_answer a = proved(&lent, &c, room);
        check(memcmp(&a, &refused, sizeof a) == 0, "device %u, way %u, %s: answered %u", device, way, names[c.kind], a.number);
        check(memcmp(room, room_as_lent, sizeof room) == 0, "device %u, way %u, %s: the room changed", device, way, names[c.kind]);
        if (!check(memcmp(&lent, &as_lent, sizeof lent) == 0, "device %u, way %u, %s: the record changed", device, way, names[c.kind]))
            memcpy(&lent, &as_lent, sizeof lent);
    }
}

/* Puts the timer of one device back. */
static void mend_timer(struct nk_keeper *k, const struct nk_keeper *whole, uint32_t device) {
    k->firsts[device] = whole->firsts[device];
    k->seconds[device] = whole->seconds[device];
    k->came[device] = whole->came[device];
}

static void every_timer(void) {
    static struct nk_keeper ready;
    make_ready(&ready);
    memcpy(&lent, &ready, sizeof ready);
    memcpy(&as_lent, &ready, sizeof ready);
    begin("out of range, the timer of every device, at every call");
    for (uint32_t d = 0; d < NK_DEVICES; d++)
        for (unsigned way = 0; way < NEAREST_TIMER_DAMAGES; way++) {
            damage_timer(&lent, d, way);
            damage_timer(&as_lent, d, way);
            refused_by_each_call(d, way);
            refused_by_an_issue(d, way);
            mend_timer(&lent, &ready, d);
            mend_timer(&as_lent, &ready, d);
        }
    check(memcmp(&lent, &ready, sizeof lent) == 0, "the record is not as it was at first");
    end();

    begin("at the edge of the range, the timer of every device");
    for (uint32_t d = 0; d < NK_DEVICES; d++)
        for (unsigned way = 0; way < TIMER_EDGES; way++) {
            timer_edge(&lent, d, way);
            check(nk_read(&lent, 9000, (uint8_t *)&as_lent, 0).number == NK_DONE, "device %u, edge %u: out of range", d, way);
            mend_timer(&lent, &ready, d);
        }
    for (unsigned way = 0; way < TIMER_EDGES; way++) {
        for (uint32_t d = 0; d < NK_DEVICES; d++) timer_edge(&lent, d, way);
        check(nk_read(&lent, 9000, (uint8_t *)&as_lent, 0).number == NK_DONE, "all devices, edge %u: out of range", way);
    }
    end();
}

#define ANSWERED(a, n, d, b, c, u)                                                                                       \
    check((a).number == (n) && (a).delivered == (d) && (a).blocks == (b) && (a).compressions == (c) && (a).added == (u), \
        "line %d: answered %u %u %u %u %u", __LINE__, (a).number, (a).delivered, (a).blocks, (a).compressions, (a).added)
#define COUNTS(k, i, b)                                                      \
    check((k).ledger.input.count == (i) && (k).ledger.blocking.count == (b), \
        "line %d: counts %u %u", __LINE__, (k).ledger.input.count, (k).ledger.blocking.count)

static void worked_cases(void) {
    begin("worked cases, by their numbers");
    struct nk_keeper k;
    struct nk_answer a;
    make(&k);
    a = try(&k, seed_of(22, 170, 7));
    ANSWERED(a, NK_DONE, 0, 0, 0, 1020);
    COUNTS(k, 1020, 0);
    check(k.ledger.seeding.mark == 0, "170 bits seed");
    make(&k);
    a = try(&k, seed_of(22, 171, 7));
    ANSWERED(a, NK_DONE, 0, 0, 16, 1026);
    COUNTS(k, 2, 0);
    check(k.ledger.seeding.mark == 1 && k.ledger.seeding.clock == 7, "171 bits do not seed");
    make(&k);
    a = try(&k, seed_of(32, 256, 7));
    ANSWERED(a, NK_DONE, 0, 0, 24, 1536);
    COUNTS(k, 0, 0);
    make(&k);
    a = try(&k, seed_of(512, 4096, 7));
    ANSWERED(a, NK_DONE, 0, 0, 32, 19968);
    COUNTS(k, 17920, 0);
    struct nk_keeper seeded = k;
    a = try(&k, blocking_read_of(16));
    ANSWERED(a, NK_DONE, 12, 0, 20, 768);
    COUNTS(k, 16896, 0);

    static const struct { size_t len; uint32_t blocks; } streams[] = {
        {1, 1}, {32, 1}, {33, 2}, {64, 2}, {65, 2}, {96, 2}, {97, 3}, {128, 3}, {4096, 65}};
    for (size_t i = 0; i < sizeof streams / sizeof *streams; i++) {
        k = seeded;
        a = try(&k, read_of(streams[i].len, 7));
        ANSWERED(a, NK_DONE, streams[i].len, streams[i].blocks, 0, 0);
    }

    /* a reseed comes at 300,001 ticks and not at 300,000, and not by a clock that ran back */
    k = seeded;
    a = try(&k, read_of(32, 300007));
    ANSWERED(a, NK_DONE, 32, 1, 0, 0);
    a = try(&k, read_of(32, 6));
    ANSWERED(a, NK_DONE, 32, 1, 0, 0);
    a = try(&k, read_of(32, 7 + 0x80000000u));
    ANSWERED(a, NK_DONE, 32, 1, 0, 0);
    a = try(&k, read_of(32, 300008));
    ANSWERED(a, NK_DONE, 32, 1, 32, 0);
    COUNTS(k, 15872, 0);
    check(k.ledger.seeding.clock == 300008, "the seeding clock after a reseed");
    k.ledger.input.count = 1023;
    a = try(&k, read_of(32, 700000));
    ANSWERED(a, NK_DONE, 32, 1, 0, 0);
    check(k.ledger.seeding.clock == 300008 && k.ledger.input.count == 1023, "a reseed from 1,023 units");
    k.ledger.input.count = 1024 + 64;
    a = try(&k, read_of(32, 700000));
    ANSWERED(a, NK_DONE, 32, 1, 16, 0);
    COUNTS(k, 0, 0);

    /* a spill comes at 1,001 ticks and not at 1,000, and at the 64th interrupt; a clock that ran back is no long wait */
    make(&k);
    for (uint32_t i = 1; i <= 63; i++) {
        a = try(&k, interrupt_at(i == 5 ? 0xffffff00u : i == 6 ? 0x80000000u : 1000));
        check(k.ledger.spill.tally == i && k.ledger.input.count == 0, "interrupt %u spilt", i);
    }
    a = try(&k, interrupt_at(1000));
    check(k.ledger.spill.tally == 0 && k.ledger.spill.clock == 1000, "interrupt 64 did not spill");
    COUNTS(k, 6, 0);
    a = try(&k, interrupt_at(2000));
    check(k.ledger.spill.tally == 1, "1,000 ticks spill");
    a = try(&k, interrupt_at(2001));
    check(k.ledger.spill.tally == 0 && k.ledger.spill.clock == 2001, "1,001 ticks do not spill");

    /* the estimate, by a device that was still before: 0, 0, 1, 1, 2, then 10, 11, 11 */
    static const struct { uint32_t clock, bits; } estimates[] = {
        {0, 0}, {1, 0}, {2, 1}, {3, 1}, {4, 2}, {2047, 10}, {2048, 11}, {4096, 11}, {0x80000000, 11}, {0xffffffff, 0}, {0xfffffffe, 1}};
    for (size_t i = 0; i < sizeof estimates / sizeof *estimates; i++) {
        make(&k);
        let_three_come(&k, 2);
        a = try(&k, event_of(2, estimates[i].clock, 1));
        COUNTS(k, estimates[i].bits * 8 * 3 / 4, 0);
    }

    /* the first seeding comes at a count of 1,024 and not at 1,023, whatever credited it; a credit of 0 seeds nothing */
    for (uint32_t count = 1018; count <= 1019; count++) {
        const struct call credits[] = {seed_of(1, 1, 50), interrupt_at(2000), event_of(4, 2, 1)};
        for (size_t i = 0; i < sizeof credits / sizeof *credits; i++) {
            make(&k);
            let_three_come(&k, 4);
            k.ledger.input.count = count;
            a = try(&k, credits[i]);
            ANSWERED(a, NK_DONE, 0, 0, count == 1019 ? 16 : 0, 5);
            COUNTS(k, count == 1019 ? 0 : 1023, 0);
            check(k.ledger.seeding.mark == (count == 1019), "1 bit onto %u units by %s seeds, or not", count, names[credits[i].kind]);
        }
    }
    make(&k);
    k.ledger.input.count = 32768;
    a = try(&k, seed_of(16, 0, 50));
    ANSWERED(a, NK_DONE, 0, 0, 0, 0);
    check(k.ledger.seeding.mark == 0 && k.ledger.input.count == 32768, "a credit of 0 bits onto a full pool");

    /* crediting near the top: turns go on up to two below the size, and a count never passes it */
    for (uint32_t count = 32752; count <= 32768; count++)
        for (uint32_t bits = 1024; bits <= 32768; bits += 1024) {
            k = seeded;
            k.ledger.input.count = count;
            a = try(&k, seed_of(4096, bits, 7));
            check(k.ledger.input.count >= count && k.ledger.input.count <= 32768, "%u bits onto %u", bits, count);
        }
    k = seeded;
    k.ledger.input.count = 32764;
    a = try(&k, seed_of(4096, 2048, 7));
    COUNTS(k, 32765, 0);
    a = try(&k, seed_of(4096, 2048, 7));
    COUNTS(k, 32766, 0);
    k.ledger.input.count = 32764;
    a = try(&k, seed_of(4096, 4096, 7));
    COUNTS(k, 32766, 0);

    /* the counter runs over into word 13, and past both */
    k = seeded;
    k.generator[12] = 0xffffffff;
    a = try(&k, read_of(64, 7));
    check(k.generator[12] == 1 && k.generator[13] == seeded.generator[13] + 1, "the counter's carry");
    k.generator[12] = k.generator[13] = 0xffffffff;
    a = try(&k, read_of(32, 7));
    check(k.generator[12] == 0 && k.generator[13] == 0, "the counter's end");
    end();
}

/* New devices: the first three kept events of each are mixed, and their timers kept, for no credit. From the fourth on the estimate is
   earned. */

/* The clocks of a device's first five events, all of which would earn, and what is there after each: differences, how many came, the
   input count. The fourth is the first that earns: by its third difference, 300, which goes back to the first event, 8 bits or 48 units;
   the fifth by its second difference, 100, 6 bits or 35 units onto those. Last stands what the event adds. */
static const struct { uint32_t clock; int64_t first, second; uint8_t came; uint32_t count, added; } first_events[] = {
    {1500, 1500, 1500, 1, 0, 0}, {5500, 4000, 2500, 2, 0, 0}, {13000, 7500, 3500, 3, 0, 0}, {24300, 11300, 3800, 3, 48, 48},
    {35700, 11400, 100, 3, 83, 35}};
enum { FIRST_EVENTS = sizeof first_events / sizeof *first_events };

/* The values differ, so that device 0 repeats none. */
static struct call first_event(uint32_t device, unsigned i) {
    return event_of(device, first_events[i].clock, i + 1);
}

/* The timer of a device after the first i + 1 of these events. */
static void check_timer(const struct nk_keeper *k, uint32_t d, unsigned i) {
    check(k->clocks[d] == first_events[i].clock && k->firsts[d] == first_events[i].first && k->seconds[d] == first_events[i].second,
        "device %u, event %u: clock %u, differences %" PRId64 " and %" PRId64, d, i + 1, k->clocks[d], k->firsts[d], k->seconds[d]);
    check(k->came[d] == first_events[i].came, "device %u, event %u: %u came", d, i + 1, k->came[d]);
}

/* One device by itself, each of them. */
static void check_first_events(void) {
    struct nk_keeper k;
    for (uint32_t d = 0; d < NK_DEVICES; d++) {
        make(&k);
        for (unsigned i = 0; i < FIRST_EVENTS; i++) {
            uint32_t input[NK_INPUT_WORDS];
            memcpy(input, k.input, sizeof input);
            struct nk_answer a = try(&k, first_event(d, i));
            ANSWERED(a, NK_DONE, 0, 0, 0, first_events[i].added);
            COUNTS(k, first_events[i].count, 0);
            check_timer(&k, d, i);
            check(k.ledger.input.spot.at == 128 - 16 * (i + 1) && memcmp(input, k.input, sizeof input) != 0,
                "device %u, event %u is not mixed", d, i + 1);
        }
    }
    /* the case that was worth 60 units, and another clock of 10 bits */
    static const uint32_t clocks[] = {1024, 1500};
    for (size_t i = 0; i < sizeof clocks / sizeof *clocks; i++) {
        make(&k);
        struct nk_answer a = try(&k, event_of(1, clocks[i], 0));
        ANSWERED(a, NK_DONE, 0, 0, 0, 0);
        COUNTS(k, 0, 0);
    }
}

/* Two devices in turn, each with its own count: the one that came first earns first, and nobody earns by the other's events. */
static void check_two_devices(void) {
    static const uint32_t pairs[][2] = {{0, 1}, {1, 0}, {3, 9}, {15, 16}, {16, 15}, {0, 256}, {1, 257}, {255, 256}, {511, 512}, {1023, 0},
        {1022, 1023}};
    for (size_t p = 0; p < sizeof pairs / sizeof *pairs; p++) {
        static const uint32_t counts[2][FIRST_EVENTS] = {{0, 0, 0, 48, 130}, {0, 0, 0, 95, 165}};
        static const uint32_t added[2][FIRST_EVENTS] = {{0, 0, 0, 48, 35}, {0, 0, 0, 47, 35}};
        struct nk_keeper k;
        make(&k);
        for (unsigned i = 0; i < FIRST_EVENTS; i++)
            for (unsigned who = 0; who < 2; who++) {
                uint32_t d = pairs[p][who], other = pairs[p][!who];
                struct nk_answer a = try(&k, first_event(d, i));
                ANSWERED(a, NK_DONE, 0, 0, 0, added[who][i]);
                COUNTS(k, counts[who][i], 0);
                check_timer(&k, d, i);
                if (who == 1 || i > 0) check_timer(&k, other, who == 1 ? i : i - 1);
            }
    }
}

/* A 7 in between does not count: not at first, and not after any event of device 0. */
static void check_repeated(void) {
    struct nk_keeper k;
    make(&k);
    check(try(&k, event_of(0, 900, 0)).number == NK_REPEATED && k.came[0] == 0, "a 7 before the first event counts");
    for (unsigned i = 0; i < FIRST_EVENTS; i++) {
        struct nk_answer a = try(&k, first_event(0, i));
        ANSWERED(a, NK_DONE, 0, 0, 0, first_events[i].added);
        for (uint32_t again = 1; again <= 3; again++) {
            check(try(&k, event_of(0, first_events[i].clock + 777 * again, i + 1)).number == NK_REPEATED, "no 7 after event %u", i + 1);
            check_timer(&k, 0, i);
            COUNTS(k, first_events[i].count, 0);
        }
    }
}

/* What is not a kept event leaves the numbers as they were: events that are refused, and the other calls. */
static void check_not_counted(void) {
    struct nk_keeper k, ready;
    make_ready(&ready);
    ready.ledger.value = 9;
    for (uint8_t came = 0; came <= 3; came++) {
        uint8_t all[NK_DEVICES];
        memset(all, came, sizeof all);
        k = ready;
        memcpy(k.came, all, sizeof all);
        check(try(&k, event_of(0, 9000, 9)).number == NK_REPEATED, "no 7");
        for (size_t i = 0; i < sizeof no_devices / sizeof *no_devices; i++)
            check(try(&k, event_of(no_devices[i], 9000, 1)).number == NK_NO_SUCH_DEVICE, "no 4 for device %u", no_devices[i]);
        k.ledger.spill.tally = 64;
        for (unsigned j = 0; j < SOME_DEVICES; j++)
            check(try(&k, event_of(some_devices[j], 9000, 1)).number == NK_OUT_OF_RANGE, "no 17 for device %u", some_devices[j]);
        check(try(&k, event_of(NK_DEVICES, 9000, 1)).number == NK_OUT_OF_RANGE, "no 17 for a device that is not there");
        k.ledger.spill.tally = 0;
        check(memcmp(k.came, all, sizeof all) == 0, "an event that was refused counts, %u came", came);
        const struct call others[] = {interrupt_at(9000), write_of(40), seed_of(40, 300, 9000), read_of(40, 900000), blocking_read_of(40)};
        for (size_t i = 0; i < sizeof others / sizeof *others; i++) {
            check(try(&k, others[i]).number == NK_DONE, "%s is refused", names[others[i].kind]);
            check(memcmp(k.came, all, sizeof all) == 0, "%s counts as an event, %u came", names[others[i].kind], came);
        }
    }
}

/* By the number that is there before the event and nothing else: below 3 it earns nothing, and seeds nothing, however full the pool is. */
static void check_each_number(void) {
    struct nk_keeper k;
    for (unsigned j = 0; j < SOME_DEVICES; j++)
        for (uint8_t came = 0; came <= 3; came++) {
            uint32_t d = some_devices[j];
            make(&k);
            k.came[d] = came;
            try(&k, event_of(d, 1024, 5));
            COUNTS(k, came == 3 ? 60 : 0, 0);
            check(k.came[d] == (came < 3 ? came + 1 : 3), "device %u: %u came after %u", d, k.came[d], came);

            make(&k);
            k.came[d] = came;
            k.ledger.input.count = 32768;
            struct nk_answer a = try(&k, event_of(d, 1024, 5));
            ANSWERED(a, NK_DONE, 0, 0, came == 3 ? 32 : 0, 0);
            check(k.ledger.seeding.mark == (came == 3), "device %u, %u came: seeded, or not", d, came);
        }
}

/* However many events come, the number stays in range. */
static void check_never_above(void) {
    struct nk_keeper k;
    make(&k);
    for (uint32_t i = 0; i < 40 * SOME_DEVICES; i++) {
        uint32_t d = some_devices[i % SOME_DEVICES], events = i / SOME_DEVICES + 1;
        check(try(&k, event_of(d, 1000 * events + i * i % 997, i + 1)).number == NK_DONE, "event %u of device %u is refused", events, d);
        check(k.came[d] == (events < 3 ? events : 3), "device %u: %u came after %u events", d, k.came[d], events);
    }
}

static void new_devices(void) {
    begin("new devices");
    check_first_events();
    check_two_devices();
    check_repeated();
    check_not_counted();
    check_each_number();
    check_never_above();
    end();
}

/* What a credit was worth: rows of fixed numbers, worked out by hand. Each has the counts before, what is done, and the answer with the
   counts after it. */

/* A made keeper with these counts, seeded or not. */
static void make_with(struct nk_keeper *k, uint32_t input, uint32_t blocking, uint32_t mark) {
    make(k);
    k->ledger.input.count = input;
    k->ledger.blocking.count = blocking;
    k->ledger.seeding.mark = mark;
}

#define ROWS(rows) (sizeof(rows) / sizeof *(rows))

static void check_worth_of_seeds(void) {
    static const struct { uint32_t input, mark, bits, added, input_after, compressions; } rows[] = {
        {0, 0, 1, 6, 6, 0},
        {0, 0, 170, 1020, 1020, 0},
        {0, 0, 171, 1026, 2, 16}, /* 1,024 of them are taken at once */
        {0, 1, 171, 1026, 1026, 0},
        {0, 0, 256, 1536, 0, 24},
        {0, 0, 4096, 19968, 17920, 32}, /* two turns, 12,288 and 7,680 */
        {17920, 1, 4096, 9048, 26968, 0}, /* 5,568 and 3,480 */
        {0, 1, 32768, 32749, 32749, 0}, /* sixteen turns, from 12,288 down to 11 */
        {1024, 0, 1, 5, 5, 16},
        {32764, 1, 4096, 2, 32766, 0},
        /* so full that a credit adds nothing; a keeper that waits for a seeding has it all the same */
        {32762, 1, 1, 0, 32762, 0},
        {32762, 0, 1, 0, 30714, 32},
        {32766, 1, 32768, 0, 32766, 0},
        {32768, 1, 32768, 0, 32768, 0},
        {32768, 0, 32768, 0, 30720, 32},
        /* no bits */
        {0, 0, 0, 0, 0, 0},
        {1024, 0, 0, 0, 1024, 0},
        {32768, 0, 0, 0, 32768, 0},
        {20000, 1, 0, 0, 20000, 0}};
    for (size_t i = 0; i < ROWS(rows); i++)
        for (size_t longer = 0; longer < 2; longer++) {
            struct nk_keeper k;
            make_with(&k, rows[i].input, 0, rows[i].mark);
            struct nk_answer a = try(&k, seed_of(longer ? 4096 : (rows[i].bits + 7) / 8, rows[i].bits, 50));
            check(a.added == rows[i].added, "%u bits onto %u: %u added", rows[i].bits, rows[i].input, a.added);
            ANSWERED(a, NK_DONE, 0, 0, rows[i].compressions, rows[i].added);
            COUNTS(k, rows[i].input_after, 0);
        }
}

/* An interrupt is worth something where it spills. */
static void check_worth_of_interrupts(void) {
    static const struct { uint32_t input, mark, tally, clock, added, input_after, compressions; } rows[] = {
        {0, 0, 0, 1000, 0, 0, 0},
        {0, 0, 0, 1001, 6, 6, 0},
        {0, 0, 62, 1000, 0, 0, 0},
        {0, 0, 63, 1000, 6, 6, 0},
        {0, 0, 63, 0x80000000, 6, 6, 0},
        {1019, 0, 0, 1000, 0, 1019, 0},
        {1019, 0, 0, 1001, 5, 0, 16},
        {1019, 1, 0, 1001, 5, 1024, 0},
        {16384, 1, 0, 1001, 3, 16387, 0},
        {32762, 1, 0, 1001, 0, 32762, 0},
        {32768, 0, 0, 1001, 0, 30720, 32},
        {32768, 0, 0, 1000, 0, 32768, 0}};
    for (size_t i = 0; i < ROWS(rows); i++) {
        struct nk_keeper k;
        make_with(&k, rows[i].input, 0, rows[i].mark);
        k.ledger.spill.tally = rows[i].tally;
        struct nk_answer a = try(&k, interrupt_at(rows[i].clock));
        check(a.added == rows[i].added, "interrupt %u at %u onto %u: %u added", rows[i].tally + 1, rows[i].clock, rows[i].input, a.added);
        ANSWERED(a, NK_DONE, 0, 0, rows[i].compressions, rows[i].added);
        COUNTS(k, rows[i].input_after, 0);
    }
}

/* An event is, where its device is not new and its clock is uneven enough. The timer is a fresh one's, so all differences are the clock. */
static void check_worth_of_events(void) {
    static const struct { uint32_t came, input, mark, clock, added, input_after, compressions; } rows[] = {
        {0, 0, 0, 2048, 0, 0, 0},
        {2, 0, 0, 2048, 0, 0, 0},
        {2, 32768, 0, 2048, 0, 32768, 0},
        {3, 0, 0, 0, 0, 0, 0},
        {3, 0, 0, 1, 0, 0, 0},
        {3, 0, 0, 2, 6, 6, 0},
        {3, 0, 0, 4, 12, 12, 0},
        {3, 0, 0, 2047, 60, 60, 0},
        {3, 0, 0, 2048, 66, 66, 0},
        {3, 0, 0, 0x80000000, 66, 66, 0},
        {3, 1000, 0, 4, 11, 1011, 0},
        {3, 1020, 0, 4, 11, 7, 16},
        {3, 1020, 1, 4, 11, 1031, 0},
        {3, 1024, 0, 1, 0, 1024, 0},
        {3, 16384, 1, 2048, 33, 16417, 0},
        {3, 32762, 1, 2048, 0, 32762, 0},
        {3, 32762, 0, 2048, 0, 30714, 32}};
    for (size_t i = 0; i < ROWS(rows); i++)
        for (unsigned j = 0; j < SOME_DEVICES; j++) {
            uint32_t d = some_devices[j];
            struct nk_keeper k;
            make_with(&k, rows[i].input, 0, rows[i].mark);
            k.came[d] = (uint8_t)rows[i].came;
            struct nk_answer a = try(&k, event_of(d, rows[i].clock, 5));
            check(a.added == rows[i].added, "device %u at %u, %u came, onto %u: %u added", d, rows[i].clock, rows[i].came, rows[i].input,
                a.added);
            ANSWERED(a, NK_DONE, 0, 0, rows[i].compressions, rows[i].added);
            COUNTS(k, rows[i].input_after, 0);
        }
}

/* A blocking read is, where it brings bytes over; what it adds is the blocking pool's. */
static void check_worth_of_blocking_reads(void) {
    static const struct { uint32_t input, blocking, len, added, delivered, input_after, blocking_after, compressions; } rows[] = {
        {17920, 0, 16, 768, 12, 16896, 0, 20},
        {512, 63, 1, 381, 1, 0, 380, 10},
        {600, 1000, 128, 379, 21, 24, 35, 14},
        {32768, 0, 128, 4992, 78, 24576, 0, 120}, /* two turns, 3,072 and 1,920 */
        /* brought over into a pool that is so full that a credit adds nothing */
        {32768, 8191, 129, 0, 127, 24576, 63, 130},
        {32768, 8192, 129, 0, 128, 24576, 0, 130},
        /* nothing brought over: the blocking pool has enough, or the input pool too little */
        {17920, 1024, 16, 0, 16, 17920, 0, 4},
        {32768, 8192, 128, 0, 128, 32768, 0, 26},
        {511, 100, 8, 0, 1, 511, 36, 2},
        {0, 64, 4096, 0, 1, 0, 0, 2},
        /* no bytes asked for */
        {17920, 0, 0, 0, 0, 17920, 0, 0}};
    for (size_t i = 0; i < ROWS(rows); i++)
        for (uint32_t mark = 0; mark < 2; mark++) {
            struct nk_keeper k;
            make_with(&k, rows[i].input, rows[i].blocking, mark);
            struct nk_answer a = try(&k, blocking_read_of(rows[i].len));
            check(a.added == rows[i].added, "a blocking read of %u, counts %u and %u: %u added", rows[i].len, rows[i].input,
                rows[i].blocking, a.added);
            ANSWERED(a, NK_DONE, rows[i].delivered, 0, rows[i].compressions, rows[i].added);
            COUNTS(k, rows[i].input_after, rows[i].blocking_after);
        }
    /* one after another, on one keeper */
    struct nk_keeper k;
    make(&k);
    struct nk_answer a = try(&k, seed_of(512, 4096, 7));
    ANSWERED(a, NK_DONE, 0, 0, 32, 19968);
    a = try(&k, blocking_read_of(16));
    ANSWERED(a, NK_DONE, 12, 0, 20, 768);
    COUNTS(k, 16896, 0);
}

/* A call that adds 6, so that whatever comes after it would show what is left over of them. */
static void add_six(struct nk_keeper *k) {
    make(k);
    struct nk_answer a = try(k, interrupt_at(2000));
    ANSWERED(a, NK_DONE, 0, 0, 0, 6);
}

/* Nothing is left over from the call before: every refusal, and every call that is done and credits nothing, right after one that added. */
static void check_nothing_left_over(void) {
    const struct { struct call call; uint32_t number; } rows[] = {
        {blocking_read_of(1), NK_WOULD_BLOCK},
        {read_of(1, 7), NK_UNSEEDED},
        {write_of(4097), NK_TOO_LONG},
        {seed_of(4097, 1, 7), NK_TOO_LONG},
        {read_of(4097, 7), NK_TOO_LONG},
        {blocking_read_of(4097), NK_TOO_LONG},
        {event_of(1024, 7, 1), NK_NO_SUCH_DEVICE},
        {seed_of(1, 9, 7), NK_CREDIT_TOO_HIGH},
        {{.kind = MAKE, .len = 47}, NK_START_NOT_48},
        {event_of(0, 7, 0), NK_REPEATED},
        {{.kind = MAKE, .len = NK_START_LENGTH}, NK_DONE},
        {event_of(1, 7, 1), NK_DONE},
        {interrupt_at(2001), NK_DONE},
        {write_of(40), NK_DONE},
        {seed_of(40, 0, 7), NK_DONE},
        {read_of(0, 7), NK_DONE},
        {blocking_read_of(0), NK_DONE}};
    struct nk_keeper k;
    struct nk_answer a;
    for (size_t i = 0; i < ROWS(rows); i++) {
        add_six(&k);
        a = try(&k, rows[i].call);
        check(a.added == 0, "%s, answered %u after a call that added 6: %u added", names[rows[i].call.kind], a.number, a.added);
        ANSWERED(a, rows[i].number, 0, 0, 0, 0);
    }
    for (size_t i = 0; i < ROWS(at_damage); i++) {
        add_six(&k);
        k.ledger.spill.tally = 64;
        a = try(&k, at_damage[i]);
        ANSWERED(a, NK_OUT_OF_RANGE, 0, 0, 0, 0);
    }
    /* a generator read, by itself and one that seeds anew; and a blocking read that brings nothing over */
    add_six(&k);
    a = try(&k, seed_of(512, 4096, 7));
    ANSWERED(a, NK_DONE, 0, 0, 32, 19963);
    a = try(&k, read_of(32, 8));
    ANSWERED(a, NK_DONE, 32, 1, 0, 0);
    a = try(&k, seed_of(1, 1, 9));
    ANSWERED(a, NK_DONE, 0, 0, 0, 2);
    a = try(&k, read_of(32, 900000));
    ANSWERED(a, NK_DONE, 32, 1, 32, 0);
    a = try(&k, blocking_read_of(1));
    ANSWERED(a, NK_DONE, 1, 0, 10, 384);
    a = try(&k, blocking_read_of(5));
    ANSWERED(a, NK_DONE, 5, 0, 2, 0);
}

static void worth(void) {
    begin("what a credit was worth");
    check_worth_of_seeds();
    check_worth_of_interrupts();
    check_worth_of_events();
    check_worth_of_blocking_reads();
    check_nothing_left_over();
    end();
}

/* The issuing desk. */

/* A full desk that remembers what the keeper will draw first, so many draws of it, each at a place of its own: the first, the last, and
   two in the middle. */
static void remember_draws(struct nk_desk *d, const struct nk_keeper *k, uint32_t now, uint8_t class, unsigned draws) {
    static const int places[DRAWS] = {0, NK_REMEMBERED - 1, 31, 32};
    static struct nk_keeper copy;
    uint8_t numbers[DRAWS][NK_NUMBER_LENGTH];
    memcpy(&copy, k, sizeof copy);
    draw(&copy, now, class, numbers, draws);
    random_desk(d, NK_REMEMBERED);
    for (unsigned i = 0; i < draws; i++) memcpy(d->numbers[places[i]], numbers[i], NK_NUMBER_LENGTH);
}

static void desk_refusals(void) {
    static const uint32_t too_many[] = {65, 66, 127, 128, 255, 256, 257, 320, 0xffff, 0x10000, 0x10001, 0x7fffffff, 0x80000000, 0x80000040,
        0xffffffc0, UINT32_MAX};
    static const uint32_t desks[] = {0, 1, 40, 63, 64};
    static const uint32_t marks[] = {0, 2, 3, 0x100, 0x101, 0x10001, 0x1000001, 0x80000001, 0xffffffff};
    static const size_t lens[] = {0, 2, 3, 4, 16, 256, 257, 4096, 4097, LONGEST};
    static uint8_t field[LONGEST], long_field[0x10001];
    static struct nk_keeper ready, unseeded;
    struct nk_desk d;
    begin("the desk: refusals, in their order");
    make_ready(&ready);
    unseeded = ready;
    unseeded.ledger.seeding.mark = 0;

    /* 17, by the desk's count, before 13 and 2; out of range by the record is tried with all other calls */
    for (size_t i = 0; i < ROWS(too_many); i++) {
        random_desk(&d, too_many[i]);
        check(number_issuing(ready, d, 9000, &drill, 1) == NK_OUT_OF_RANGE, "a desk of %u", too_many[i]);
        check(number_issuing(unseeded, d, 9000, &live, 1) == NK_OUT_OF_RANGE, "a desk of %u, unseeded", too_many[i]);
        check(number_issuing(ready, d, 9000, &live, 0) == NK_OUT_OF_RANGE, "a desk of %u, no class", too_many[i]);
        check(number_issuing(unseeded, d, 9000, (const uint8_t *)"x", 1) == NK_OUT_OF_RANGE, "a desk of %u, another class", too_many[i]);
    }

    /* 13, before 2: every byte but two, and every length but one */
    for (size_t i = 0; i < ROWS(desks); i++) {
        random_desk(&d, desks[i]);
        for (int byte = 0; byte < 256; byte++) {
            field[0] = (uint8_t)byte;
            int right = byte == 0x44 || byte == 0x4c;
            check(number_issuing(ready, d, 9000, field, 1) == (right ? NK_DONE : NK_NO_SUCH_CLASS), "class %02x, desk of %u", byte, desks[i]);
            check(number_issuing(unseeded, d, 9000, field, 1) == (right ? NK_UNSEEDED : NK_NO_SUCH_CLASS), "class %02x, unseeded", byte);
        }
        for (size_t n = 0; n < ROWS(lens); n++) {
            memset(field, n % 2 ? NK_DRILL : NK_LIVE, sizeof field);
            check(number_issuing(ready, d, 9000, field, lens[n]) == NK_NO_SUCH_CLASS, "a class field of %zu, desk of %u", lens[n], desks[i]);
            check(number_issuing(unseeded, d, 9000, field, lens[n]) == NK_NO_SUCH_CLASS, "a class field of %zu, unseeded", lens[n]);
        }
    }
    /* a length that would be 1 if it were cut to 16 bits */
    struct nk_keeper k = ready;
    memset(long_field, NK_DRILL, sizeof long_field);
    d.count = 0;
    struct nk_issued i = nk_issue(&k, &d, 9000, long_field, sizeof long_field);
    ANSWERED(i.answer, NK_NO_SUCH_CLASS, 0, 0, 0, 0);
    check(same_fields(&k, &ready) && d.count == 0, "a class field of %zu changed something", sizeof long_field);

    /* 2, by every mark but 1; the desk may be any, and a seeding overdue */
    for (size_t m = 0; m < ROWS(marks); m++)
        for (size_t n = 0; n < ROWS(desks); n++) {
            unseeded.ledger.seeding.mark = marks[m];
            random_desk(&d, desks[n]);
            check(number_issuing(unseeded, d, 5000, &drill, 1) == NK_UNSEEDED, "mark %u, desk of %u", marks[m], desks[n]);
            check(number_issuing(unseeded, d, 900000, &live, 1) == NK_UNSEEDED, "mark %u, desk of %u, overdue", marks[m], desks[n]);
        }
    make(&k);
    memset(&d, 0, sizeof d);
    check(number_issuing(k, d, 0, &drill, 1) == NK_UNSEEDED, "a keeper that was just made");
    end();
}

/* Zeroed memory; and that a number is what a read would have handed out, behind its class. */
static void check_empty_desks(void) {
    static struct nk_keeper ready, k, copy;
    static const uint8_t *const classes[2] = {&drill, &live};
    uint8_t bytes[DRAWN];
    make_ready(&ready);
    for (int c = 0; c < 2; c++) {
        struct nk_desk d, expected;
        memset(&d, 0, sizeof d);
        memset(&expected, 0, sizeof expected);
        k = copy = ready;
        struct nk_issued i = try_issue(&k, &d, 6000, classes[c], 1);
        ANSWERED(i.answer, NK_DONE, 16, 1, 0, 0);
        check(nk_read(&copy, 6000, bytes, DRAWN).number == NK_DONE, "a read of 15 bytes");
        check(i.number[0] == *classes[c] && memcmp(i.number + 1, bytes, DRAWN) == 0, "a number is not its class and what a read draws");
        check(same_fields(&k, &copy), "a number and a read leave different records");
        expected.count = 1;
        memcpy(expected.numbers[0], i.number, NK_NUMBER_LENGTH);
        check(memcmp(&d, &expected, sizeof d) == 0, "zeroed memory, and one number in it");
        /* no place is remembered: what will be drawn stands in each of them */
        k = ready;
        for (int n = 0; n < NK_REMEMBERED; n++) memcpy(d.numbers[n], i.number, NK_NUMBER_LENGTH);
        d.count = 0;
        i = try_issue(&k, &d, 6000, classes[c], 1);
        ANSWERED(i.answer, NK_DONE, 16, 1, 0, 0);
        check(memcmp(i.number, expected.numbers[0], NK_NUMBER_LENGTH) == 0, "an empty desk remembers its free places");
    }
    /* a desk may remember zeroes, or any other bytes, without knowing them for free places */
    struct nk_desk zeroes;
    memset(&zeroes, 0, sizeof zeroes);
    zeroes.count = NK_REMEMBERED;
    k = ready;
    struct nk_issued i = try_issue(&k, &zeroes, 6000, &live, 1);
    ANSWERED(i.answer, NK_DONE, 16, 1, 0, 0);
}

/* What the first draws of a keeper will be is at the desk already: all ways to repeat so often, at the first, a middle and the last place. */
static void check_repeats(const struct nk_keeper *from, uint32_t now, uint32_t compressions) {
    static struct nk_keeper k, after;
    static const uint32_t counts[] = {1, 2, 3, 4, 5, 33, 63, 64};
    for (unsigned repeats = 0; repeats <= DRAWS; repeats++)
        for (size_t c = 0; c < ROWS(counts); c++)
            for (unsigned way = 0; way < 6; way++) {
                uint32_t count = counts[c];
                uint8_t numbers[DRAWS + 1][NK_NUMBER_LENGTH];
                struct nk_desk d, before;
                if (count < repeats) continue;
                memcpy(&after, from, sizeof after);
                draw(&after, now, way % 2 ? NK_LIVE : NK_DRILL, numbers, DRAWS + 1);
                random_desk(&d, count);
                /* from the front, from the end, or spread over the desk; the order at the desk is not that of the draws */
                for (unsigned r = 0; r < repeats; r++) {
                    uint32_t place = way < 2 ? r : way < 4 ? count - 1 - r : repeats == 1 ? count / 2 : r * (count - 1) / (repeats - 1);
                    memcpy(d.numbers[place], numbers[(r + way) % repeats], NK_NUMBER_LENGTH);
                }
                memcpy(&k, from, sizeof k);
                before = d;
                struct nk_issued i = try_issue(&k, &d, now, way % 2 ? &live : &drill, 1);
                if (repeats < DRAWS) {
                    ANSWERED(i.answer, NK_DONE, 16, repeats + 1, compressions, 0);
                    check(memcmp(i.number, numbers[repeats], NK_NUMBER_LENGTH) == 0, "%u repeats, desk of %u: not the next draw", repeats,
                        count);
                } else {
                    ANSWERED(i.answer, NK_ALL_REPEATED, 0, 4, compressions, 0);
                    check(memcmp(&d, &before, sizeof d) == 0, "four repeats change a desk of %u", count);
                    memcpy(&after, from, sizeof after);
                    draw(&after, now, way % 2 ? NK_LIVE : NK_DRILL, numbers, DRAWS);
                    check(same_fields(&k, &after), "four repeats leave another record than four reads");
                }
            }
}

/* The draw stands at each place in turn, of desks of all lengths: it repeats exactly if the place is remembered. */
static void check_every_place(const struct nk_keeper *from) {
    static struct nk_keeper k;
    uint8_t numbers[2][NK_NUMBER_LENGTH];
    k = *from;
    draw(&k, 6000, NK_DRILL, numbers, 2);
    for (uint32_t count = 0; count <= NK_REMEMBERED; count += count < 60 ? 3 : 1)
        for (uint32_t place = 0; place < NK_REMEMBERED; place++) {
            struct nk_desk d;
            random_desk(&d, count);
            memcpy(d.numbers[place], numbers[0], NK_NUMBER_LENGTH);
            k = *from;
            struct nk_issued i = try_issue(&k, &d, 6000, &drill, 1);
            uint32_t repeats = place < count;
            ANSWERED(i.answer, NK_DONE, 16, 1 + repeats, 0, 0);
            check(memcmp(i.number, numbers[repeats], NK_NUMBER_LENGTH) == 0, "desk of %u, the draw at place %u", count, place);
        }
}

/* Draws that are remembered but not those that come first; and one that is remembered twice, which is one repeat. */
static void check_some_of_the_draws(const struct nk_keeper *from) {
    static struct nk_keeper k;
    uint8_t numbers[DRAWS + 1][NK_NUMBER_LENGTH];
    k = *from;
    draw(&k, 6000, NK_LIVE, numbers, DRAWS + 1);
    for (unsigned which = 0; which < 1u << DRAWS; which++)
        for (unsigned twice = 0; twice < 2; twice++) {
            struct nk_desk d;
            unsigned repeats = 0;
            random_desk(&d, NK_REMEMBERED);
            for (unsigned n = 0; n < DRAWS; n++)
                for (unsigned again = 0; again <= twice && (which >> n & 1); again++)
                    memcpy(d.numbers[7 + 9 * n + 30 * again % 57], numbers[n], NK_NUMBER_LENGTH);
            while (repeats < DRAWS && remembers(&d, numbers[repeats])) repeats++;
            k = *from;
            struct nk_issued i = try_issue(&k, &d, 6000, &live, 1);
            check(i.answer.number == (repeats < DRAWS ? NK_DONE : NK_ALL_REPEATED), "draws %x are remembered: answered %u", which,
                i.answer.number);
            check(i.answer.blocks == (repeats < DRAWS ? repeats + 1 : DRAWS), "draws %x are remembered: %u blocks", which, i.answer.blocks);
        }
}

/* Numbers that are nearly the draw: no repeat. A way to be so is laid over every place of a full desk. */

/* By one bit, another at each place: with the second way, every other bit of the 128. */
static void lay_bit(uint8_t *number, unsigned place, unsigned way) {
    unsigned bit = 2 * place + way;
    number[bit / 8] ^= (uint8_t)(1u << bit % 8);
}

/* By all bytes from one on, or by all before it, at every other place: two neighbours together have every byte of the draw. */
static void lay_part(uint8_t *number, unsigned place, unsigned from) {
    uint8_t *other = place % 2 ? number + from : number;
    size_t len = place % 2 ? NK_NUMBER_LENGTH - from : from;
    for (size_t i = 0; i < len; i++) other[i] ^= (uint8_t)(1 + below(255));
}

/* By one unit of 1, 2, 4 or 8 bytes, another at each place. */
static void lay_unit(uint8_t *number, unsigned place, unsigned log) {
    unsigned width = 1u << log;
    for (unsigned i = 0; i < width; i++) number[(place * width + i) % NK_NUMBER_LENGTH] ^= (uint8_t)(1 + below(255));
}

static void lay_class(uint8_t *number, unsigned place, unsigned class) {
    (void)place;
    number[0] = (uint8_t)class;
}

static void check_near_draws(const struct nk_keeper *from) {
    static const struct { void (*lay)(uint8_t *number, unsigned place, unsigned way); unsigned first, last; } ways[] = {
        {lay_bit, 0, 1}, {lay_part, 1, 15}, {lay_unit, 0, 3}, {lay_class, NK_LIVE, NK_LIVE}};
    static struct nk_keeper k;
    uint8_t number[1][NK_NUMBER_LENGTH];
    k = *from;
    draw(&k, 6000, NK_DRILL, number, 1);
    for (size_t w = 0; w < ROWS(ways); w++)
        for (unsigned way = ways[w].first; way <= ways[w].last; way++) {
            struct nk_desk d;
            d.count = NK_REMEMBERED;
            for (unsigned place = 0; place < NK_REMEMBERED; place++) {
                memcpy(d.numbers[place], number[0], NK_NUMBER_LENGTH);
                ways[w].lay(d.numbers[place], place, way);
            }
            k = *from;
            struct nk_issued i = try_issue(&k, &d, 6000, &drill, 1);
            ANSWERED(i.answer, NK_DONE, 16, 1, 0, 0);
            check(memcmp(i.number, number[0], NK_NUMBER_LENGTH) == 0, "nearly the draw, way %zu, %u: not the draw", w, way);
        }
}

/* .. and by each of the 128 bits, at the first, a middle and the last place, among numbers that have nothing of it. */
static void check_every_bit(const struct nk_keeper *from) {
    static const int places[] = {0, 1, 31, 62, 63};
    static struct nk_keeper k;
    uint8_t number[1][NK_NUMBER_LENGTH];
    k = *from;
    draw(&k, 6000, NK_DRILL, number, 1);
    for (unsigned bit = 0; bit < 8 * NK_NUMBER_LENGTH; bit++)
        for (size_t p = 0; p < ROWS(places); p++) {
            struct nk_desk d;
            random_desk(&d, NK_REMEMBERED);
            memcpy(d.numbers[places[p]], number[0], NK_NUMBER_LENGTH);
            d.numbers[places[p]][bit / 8] ^= (uint8_t)(1u << bit % 8);
            k = *from;
            struct nk_issued i = try_issue(&k, &d, 6000, &drill, 1);
            ANSWERED(i.answer, NK_DONE, 16, 1, 0, 0);
        }
}

static void desk_draws(void) {
    static struct nk_keeper ready, k;
    make_ready(&ready);
    begin("the desk: empty, and zeroed memory is one");
    check_empty_desks();
    end();

    begin("the desk: draws that it remembers, one to four of them");
    check_repeats(&ready, 6000, 0);
    check_every_place(&ready);
    check_some_of_the_draws(&ready);
    end();

    begin("the desk: numbers that are nearly the draw are no repeat");
    check_every_bit(&ready);
    check_near_draws(&ready);
    end();

    begin("the desk: a first draw that seeds anew, and repeats");
    check_repeats(&ready, 5000 + 300000, 0);
    check_repeats(&ready, 5000 + 300001, 32);
    check_repeats(&ready, 5000u + 0x7fffffff, 32);
    check_repeats(&ready, 5000u + 0x80000000, 0);
    /* overdue: from 1,023 units none of the draws seeds, from 1,024 the first does, and what is left is none of the others' */
    static const struct { uint32_t count, compressions, left; } pools[] = {{1023, 0, 1023}, {1024, 16, 0}, {2047, 32, 63}, {3072, 32, 1024}};
    for (size_t i = 0; i < ROWS(pools); i++) {
        struct nk_desk d;
        k = ready;
        k.ledger.input.count = pools[i].count;
        check_repeats(&k, 900000, pools[i].compressions);
        remember_draws(&d, &k, 900000, NK_DRILL, 3);
        struct nk_issued issued = try_issue(&k, &d, 900000, &drill, 1);
        ANSWERED(issued.answer, NK_DONE, 16, 4, pools[i].compressions, 0);
        COUNTS(k, pools[i].left, ready.ledger.blocking.count);
        check(k.ledger.seeding.clock == (pools[i].compressions ? 900000 : 5000), "the seeding clock after it");
    }
    end();
}

/* Numbers on end at one desk, drill and live by turns; all that were ever issued are kept here. */
static void desk_on_end(void) {
    enum { MANY = 400 };
    static struct nk_keeper k;
    static uint8_t numbers[MANY][NK_NUMBER_LENGTH];
    struct nk_desk d;
    begin("the desk: many numbers on end, and the oldest goes");
    make_ready(&k);
    memset(&d, 0, sizeof d);
    for (unsigned n = 0; n < MANY; n++) {
        struct nk_issued i = try_issue(&k, &d, 6000 + 2000 * n, n % 3 ? &live : &drill, 1);
        check(i.answer.number == NK_DONE && i.answer.blocks == 1, "number %u: answered %u", n, i.answer.number);
        check(i.number[0] == (n % 3 ? NK_LIVE : NK_DRILL), "number %u: another class", n);
        memcpy(numbers[n], i.number, NK_NUMBER_LENGTH);
        uint32_t kept = n + 1 < NK_REMEMBERED ? n + 1 : NK_REMEMBERED;
        check(d.count == kept, "number %u: %u remembered", n, d.count);
        check(memcmp(d.numbers, numbers[n + 1 - kept], (size_t)kept * NK_NUMBER_LENGTH) == 0, "number %u: not the last ones, in order", n);
        for (unsigned m = n < NK_REMEMBERED ? 0 : n - NK_REMEMBERED; m < n; m++)
            check(memcmp(numbers[m], numbers[n], NK_NUMBER_LENGTH) != 0, "numbers %u and %u are the same", m, n);
    }
    /* what the full desk has forgotten may come again: the oldest is remembered up to the call that drops it */
    static struct nk_keeper again;
    for (unsigned place = 0; place < 2; place++) {
        uint8_t draws[2][NK_NUMBER_LENGTH];
        struct nk_issued i;
        make_ready(&k);
        again = k;
        draw(&again, 6000, NK_LIVE, draws, 2);
        random_desk(&d, NK_REMEMBERED);
        memcpy(d.numbers[place], draws[0], NK_NUMBER_LENGTH);
        again = k;
        i = try_issue(&k, &d, 6000, &live, 1);
        ANSWERED(i.answer, NK_DONE, 16, 2, 0, 0);
        i = try_issue(&again, &d, 6000, &live, 1); /* a record put back */
        ANSWERED(i.answer, NK_DONE, 16, place == 0 ? 1 : 3, 0, 0);
    }
    end();
}

/* What the header says beyond the single calls. */
static void header_says(void) {
    struct nk_keeper ready, k;
    struct nk_answer a;
    make_ready(&ready);

    begin("the most work of one call is reached");
    struct nk_keeper full = ready;
    full.ledger.input.count = 32768;
    full.ledger.blocking.count = 8192;
    static const struct call most[] = {
        {.kind = EVENT, .device = 3, .now = 9000, .value = 1},
        {.kind = INTERRUPT, .now = 9000},
        {.kind = WRITE, .len = 4096},
        {.kind = SEED, .now = 9000, .len = 4096, .credit = 32768},
        {.kind = READ, .now = 900000, .len = 4096},
        {.kind = BLOCKING_READ, .len = 129},
        {.kind = BLOCKING_READ, .len = 4096},
    };
    for (size_t i = 0; i < sizeof most / sizeof *most; i++) {
        k = full;
        k.ledger.seeding.mark = is_read(most[i].kind);
        a = try(&k, most[i]);
        ANSWERED(a, NK_DONE, most[i].kind == READ ? 4096 : most[i].kind == BLOCKING_READ ? 128 : 0, most_work[most[i].kind].blocks,
            most_work[most[i].kind].compressions, 0);
    }
    for (unsigned repeats = 3; repeats <= DRAWS; repeats++) {
        struct nk_desk desk;
        k = full;
        remember_draws(&desk, &k, 900000, NK_LIVE, repeats);
        a = try_issue(&k, &desk, 900000, &live, 1).answer;
        ANSWERED(a, repeats < DRAWS ? NK_DONE : NK_ALL_REPEATED, repeats < DRAWS ? 16 : 0, 4, 32, 0);
    }
    end();

    begin("a clock that is half its range ahead reads as one that ran back");
    static const struct { uint32_t gap; int due; } gaps[] = {{0, 0}, {1, 0}, {300000, 0}, {300001, 1}, {0x40000000, 1}, {0x7fffffff, 1},
        {0x80000000, 0}, {0x80000001, 0}, {0xc0000000, 0}, {0xffffffff, 0}};
    static const uint32_t seeded_at[] = {0, 5000, 0x7fffffff, 0xfffffff0};
    for (size_t s = 0; s < sizeof seeded_at / sizeof *seeded_at; s++)
        for (size_t i = 0; i < sizeof gaps / sizeof *gaps; i++) {
            uint32_t now = seeded_at[s] + gaps[i].gap;
            k = ready;
            k.ledger.seeding.clock = seeded_at[s];
            a = try(&k, read_of(32, now));
            check((a.compressions > 0) == gaps[i].due, "a read %u ticks after a seeding at %u: %u compressions", gaps[i].gap, seeded_at[s],
                a.compressions);
            check(k.ledger.seeding.clock == (gaps[i].due ? now : seeded_at[s]), "the seeding clock after it");

            k = ready;
            k.ledger.spill.clock = seeded_at[s];
            int timed = gaps[i].gap > 1000 && gaps[i].gap < 0x80000000;
            for (uint32_t n = 1; n < 64 && !timed; n++) {
                a = try(&k, interrupt_at(now));
                check(k.ledger.spill.tally == n, "interrupt %u, %u ticks after a spill, spills", n, gaps[i].gap);
            }
            a = try(&k, interrupt_at(now));
            check(k.ledger.spill.tally == 0 && k.ledger.spill.clock == now, "interrupt %d, %u ticks after a spill, does not spill",
                timed ? 1 : 64, gaps[i].gap);
            a = try(&k, interrupt_at(now + 1000));
            check(k.ledger.spill.tally == 1, "1,000 ticks after that spill");
            a = try(&k, interrupt_at(now + 1001));
            check(k.ledger.spill.tally == 0, "1,001 ticks after that spill");
        }
    end();

    begin("copies, start bytes and seeds");
    uint8_t one[64], other[64], start[NK_START_LENGTH] = {0};
    struct nk_keeper copy = k = ready;
    check(nk_read(&k, 6000, one, 64).number == NK_DONE && nk_read(&copy, 6000, other, 64).number == NK_DONE, "reads of a copy");
    check(memcmp(one, other, 64) == 0, "two copies of a record hand out different bytes");
    check(nk_blocking_read(&k, one, 64).delivered == 64 && nk_blocking_read(&copy, other, 64).delivered == 64, "blocking reads of a copy");
    check(memcmp(one, other, 64) == 0, "two copies of a record hand out different blocking bytes");
    /* keepers that are fed alike: by the same start bytes, by others, and by others that are written too */
    for (int way = 0; way < 3; way++) {
        struct nk_keeper *const both[2] = {&k, &copy};
        uint8_t *const rooms[2] = {one, other}, blocking[2][20];
        for (uint8_t i = 0; i < 2; i++) {
            start[40] = way > 0 ? i : 0;
            check(nk_make(both[i], start, sizeof start).number == NK_DONE, "a keeper is not made");
            if (way == 2) nk_write(both[i], start, sizeof start);
            check(nk_seed(both[i], 7, (const uint8_t *)ready.input, 512, 4096).number == NK_DONE, "a seed is refused");
            check(nk_read(both[i], 8, rooms[i], 64).number == NK_DONE, "a read is refused");
            check(nk_blocking_read(both[i], blocking[i], 20).number == NK_DONE, "a blocking read is refused");
        }
        check((memcmp(one, other, 64) == 0) == (way == 0), "way %d: keepers fed alike", way);
        check((memcmp(blocking[0], blocking[1], 12) == 0) == (way < 2), "way %d: blocking bytes of keepers fed alike", way);
    }
    /* crediting: at most three quarters, and the less the fuller the pool is */
    for (uint32_t bits = 1; bits <= 32768; bits = bits * 3 / 2 + 1) {
        uint32_t last = UINT32_MAX;
        for (uint32_t count = 0; count <= 32768; count += 512) {
            k = ready;
            k.ledger.input.count = count;
            a = try(&k, seed_of(4096, bits, 6000));
            uint32_t added = k.ledger.input.count - count;
            check(added <= 6 * bits && added <= last, "%u bits onto %u: %u added", bits, count, added);
            last = added;
        }
    }
    end();
}

/* 0 to 300, then 4,095 to 4,097 */
static size_t next_length(size_t len) {
    return len == 300 ? 4095 : len + 1;
}

static void lengths(void) {
    struct nk_keeper ready, k;
    make_ready(&ready);
    begin("reads of every length");
    for (size_t len = 0; len <= 4097; len = next_length(len)) {
        uint32_t number = len > 4096 ? NK_TOO_LONG : NK_DONE, delivered = len > 4096 ? 0 : (uint32_t)len;
        for (unsigned overdue = 0; overdue < 2; overdue++) {
            k = ready;
            struct nk_answer a = try(&k, read_of(len, overdue ? 400000 : 5000));
            check(a.number == number && a.delivered == delivered, "a read of %zu: %u, %u delivered", len, a.number, a.delivered);
            check(len == 0 || len > 4096 || memcmp(k.generator + 4, ready.generator + 4, 32) != 0, "a read of %zu keeps the key", len);
        }
    }
    end();
    begin("blocking reads of every length");
    for (size_t len = 0; len <= 4097; len = next_length(len)) {
        static const uint32_t blocking[] = {0, 63, 64, 1000, 4096, 8192};
        for (size_t i = 0; i < sizeof blocking / sizeof *blocking; i++) {
            k = ready;
            k.ledger.blocking.count = blocking[i];
            if (len % 3 == 1) k.ledger.input.count = 512 + (uint32_t)len;
            if (len % 3 == 2 && i > 1) k.ledger.input.count = 511;
            struct nk_answer a = try(&k, blocking_read_of(len));
            check(a.number == (len > 4096 ? NK_TOO_LONG : NK_DONE) && a.delivered <= len,
                "a blocking read of %zu: %u, %u delivered", len, a.number, a.delivered);
            check(len == 0 || len > 4096 || a.delivered >= 1, "a blocking read of %zu delivers nothing", len);
            check(len > 4096 || 64 * (uint64_t)len > blocking[i] || a.delivered == len,
                "a blocking read of %zu is not served in full", len);
        }
    }
    end();
    begin("writes and seeds of every length");
    for (size_t len = 0; len <= 4097; len = next_length(len)) {
        k = ready;
        check(try(&k, write_of(len)).number == (len > 4096 ? NK_TOO_LONG : NK_DONE), "a write of %zu", len);
        check(k.ledger.input.count == ready.ledger.input.count, "a write of %zu is credited", len);
        make(&k);
        check(try(&k, seed_of(len, 8 * (uint32_t)len, 50)).number == (len > 4096 ? NK_TOO_LONG : NK_DONE), "a seed of %zu", len);
        make(&k);
        check(try(&k, seed_of(len, (uint32_t)len / 2, 50)).number == (len > 4096 ? NK_TOO_LONG : NK_DONE),
            "a seed of %zu with less credit", len);
    }
    end();
}

/* A clock that is near what the record compares it with, more often than not. */
static uint32_t random_now(uint32_t since, uint32_t limit) {
    switch (below(6)) {
    case 0: return since + limit;
    case 1: return since + limit + 1;
    case 2: return since + below(limit);
    case 3: return since - 1 - below(5000);
    case 4: return since + 0x7fffffff + below(3);
    default: return (uint32_t)chance();
    }
}

/* One of a few more often than not, so that some have many events. */
static uint32_t random_device(void) {
    return below(3) ? some_devices[below(SOME_DEVICES)] : below(1101);
}

static size_t random_length(void) {
    return below(8) == 0 ? 4090 + below(10) : below(4) ? below(140) : below(1100);
}

static void random_calls(uint64_t seed) {
    unsigned seen[8] = {0}, damaged = 0, came_before[4] = {0}, earned = 0, worth_some[KINDS] = {0}, first_seedings = 0;
    char name[80];
    snprintf(name, sizeof name, "%d random calls, seed %" PRIu64, RANDOM_CALLS, seed);
    begin(name);
    struct nk_keeper k;
    make(&k);
    for (int n = 0; n < RANDOM_CALLS; n++) {
        unsigned fresh = below(6);
        if (fresh == 0) make(&k);
        if (fresh == 1) random_record(&k);
        if (below(12) == 0) {
            struct nk_keeper whole = k;
            damage(&k, below(DAMAGES));
            struct nk_keeper hurt = k;
            struct call c = at_damage[below(sizeof at_damage / sizeof *at_damage)];
            struct nk_answer a = try(&k, c);
            check(a.number == NK_OUT_OF_RANGE && same_fields(&k, &hurt), "random call %d on a damaged record", n);
            damaged += a.number == NK_OUT_OF_RANGE;
            k = whole;
        }
        struct call c = {.kind = (enum kind)below(KINDS),
            .number = (uint32_t)chance(),
            .stamp = chance(),
            .address = chance(),
            .len = random_length()};
        c.device = random_device();
        c.value = below(3) ? below(4) : (uint32_t)chance();
        uint32_t last_clock = k.clocks[c.device % NK_DEVICES];
        switch (c.kind) {
        case EVENT: c.now = below(2) ? last_clock + below(6000) : random_now(last_clock, 2048); break;
        case INTERRUPT: c.now = random_now(k.ledger.spill.clock, 1000); break;
        default: c.now = random_now(k.ledger.seeding.clock, 300000);
        }
        c.credit = below(4) ? (uint32_t)(c.len * 8) / (1 + below(30)) : (uint32_t)(c.len * 8) + below(2);
        unsigned came = k.came[c.device % NK_DEVICES];
        uint32_t count = k.ledger.input.count, mark = k.ledger.seeding.mark;
        struct nk_answer a = try(&k, c);
        if (a.number < 8) seen[a.number]++;
        if (a.number == NK_DONE && c.kind == EVENT) came_before[came & 3]++, earned += k.ledger.input.count != count;
        worth_some[c.kind] += a.added > 0;
        first_seedings += mark != 1 && k.ledger.seeding.mark == 1 && a.added > 0;
        check(number_of(k, write_of(0)) == NK_DONE, "random call %d left the record out of range", n);
    }
    /* the calls must have come by every answer that they can have, or they test less than they seem to */
    for (unsigned number = 0; number < 8; number++)
        if (number != NK_START_NOT_48) check(seen[number] > 0, "no random call was answered %u", number);
    check(damaged > 0, "no random call met a damaged record");
    for (unsigned came = 0; came <= 3; came++) check(came_before[came] > 0, "no random event had %u before it", came);
    check(earned > 0, "no random event earned");
    static const enum kind crediting[] = {EVENT, INTERRUPT, SEED, BLOCKING_READ};
    for (size_t i = 0; i < ROWS(crediting); i++) check(worth_some[crediting[i]] > 0, "no random %s added", names[crediting[i]]);
    check(first_seedings > 0, "no random call added and seeded at once");
    end();
}

/* Any record, any desk, most classes right; now and then what will be drawn is at the desk already, or in a free place. */
static void random_numbers(uint64_t seed) {
    static struct nk_keeper k, copy;
    unsigned seen[18] = {0}, draws[DRAWS + 1] = {0}, full = 0, seeded_and_repeated = 0;
    char name[80];
    snprintf(name, sizeof name, "the desk: %d random numbers, seed %" PRIu64, RANDOM_NUMBERS, seed);
    begin(name);
    struct nk_desk d;
    make_ready(&k);
    random_desk(&d, 0);
    for (int n = 0; n < RANDOM_NUMBERS; n++) {
        uint8_t field[3] = {below(2) ? NK_DRILL : NK_LIVE, (uint8_t)chance(), NK_LIVE}, planned[DRAWS][NK_NUMBER_LENGTH];
        size_t len = below(16) ? 1 : below(4);
        if (below(16) == 0) field[0] = (uint8_t)chance();
        if (below(4) == 0) random_record(&k);
        if (below(4) == 0) random_desk(&d, below(3) ? below(NK_REMEMBERED + 1) : NK_REMEMBERED);
        if (below(64) == 0) random_desk(&d, (uint32_t)chance());
        if (below(16) == 0) damage(&k, below(DAMAGES));
        uint32_t now = random_now(k.ledger.seeding.clock, 300000);
        memcpy(&copy, &k, sizeof copy);
        if (below(2) && nk_read(&copy, now, planned[0], 0).number == NK_DONE && k.ledger.seeding.mark == 1) {
            unsigned some = below(DRAWS + 1);
            draw(&copy, now, field[0], planned, some);
            for (unsigned i = 0; i < some; i++)
                memcpy(d.numbers[d.count > 0 && d.count <= NK_REMEMBERED && below(8) ? below(d.count) : below(NK_REMEMBERED)], planned[i],
                    NK_NUMBER_LENGTH);
        }
        uint32_t count = d.count;
        struct nk_issued i = try_issue(&k, &d, now, field, len);
        if (i.answer.number < 18) seen[i.answer.number]++;
        if (i.answer.number == NK_DONE && i.answer.blocks <= DRAWS) draws[i.answer.blocks]++, full += count == NK_REMEMBERED;
        seeded_and_repeated += i.answer.blocks > 1 && i.answer.compressions > 0;
        if (i.answer.number == NK_OUT_OF_RANGE) random_record(&k), random_desk(&d, below(NK_REMEMBERED + 1));
    }
    static const unsigned answers[] = {NK_DONE, NK_UNSEEDED, NK_NO_SUCH_CLASS, NK_ALL_REPEATED, NK_OUT_OF_RANGE};
    for (size_t i = 0; i < ROWS(answers); i++) check(seen[answers[i]] > 0, "no random issue was answered %u", answers[i]);
    for (unsigned i = 1; i <= DRAWS; i++) check(draws[i] > 0, "no random number took %u draws", i);
    check(full > 0 && seeded_and_repeated > 0, "no random number at a full desk, or none that seeded anew and repeated");
    end();
}

int main(int argc, char **argv) {
    uint64_t seed = argc > 1 ? strtoull(argv[1], NULL, 0) : 7539;
    chance_at = seed;
    lend_memory();
    layout();
    yardsticks();
    making();
    refusals();
    out_of_range();
    every_timer();
    worked_cases();
    new_devices();
    worth();
    header_says();
    lengths();
    random_calls(seed);
    desk_refusals();
    desk_draws();
    desk_on_end();
    random_numbers(seed);
    return counted();
}
