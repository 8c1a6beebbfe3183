/* That no branch and no address in a call depends on a secret, but for the index of the twist table: each call of nk.h, in several situations, is
 * made by steps (tests/walk.h) from the same public numbers and several secrets, in the same memory, and all its walks have to be the same.
 * The argument is the file that tests/operands writes. tests/secrets says what this shows and what not. */
#define _GNU_SOURCE
#include <inttypes.h>
#include <stddef.h>

#include "../include/nk.h"
#include "chance.h"
#include "groups.h"
#include "walk.h"

/* What the archive asks for, as short as can be: the library's own differ from machine to machine, and are not the archive's. */

void *__wrap_memcpy(void *to, const void *from, size_t length);
void *__wrap_memcpy(void *to, const void *from, size_t length) {
    void *at = to;
    __asm__ volatile("rep movsb" : "+D"(at), "+S"(from), "+c"(length)::"memory");
    return to;
}

/* backwards where the end of what is moved would be written over before it is read */
void *__wrap_memmove(void *to, const void *from, size_t length);
void *__wrap_memmove(void *to, const void *from, size_t length) {
    if ((uintptr_t)to - (uintptr_t)from >= length) return __wrap_memcpy(to, from, length);
    void *last = (uint8_t *)to + length - 1;
    from = (const uint8_t *)from + length - 1;
    __asm__ volatile("std\n\trep movsb\n\tcld" : "+D"(last), "+S"(from), "+c"(length)::"memory");
    return to;
}

void *__wrap_memset(void *to, int byte, size_t length);
void *__wrap_memset(void *to, int byte, size_t length) {
    void *at = to;
    __asm__ volatile("rep stosb" : "+D"(at), "+c"(length) : "a"(byte) : "memory");
    return to;
}

/* Calls that go wrong, each in one way, and two that do not: what each is found to be shows that the test can fail. The secret is 3, then 8. */

static volatile uint32_t secret, sink, words[16];
static volatile uint8_t guess[4] = {3, 3, 3, 3}, secret_bytes[4];
static volatile uint32_t table[TWISTS + 1]; /* the twist table and a word behind it */

static void branches(void) { if (secret & 8) sink = 1; }
static void loads(void) { sink = words[secret]; }
static void stores(void) { words[secret] = 1; }
static void repeats(void) {
    volatile void *at = words;
    uint64_t count = secret;
    __asm__ volatile("rep stosb" : "+D"(at), "+c"(count) : "a"(0) : "memory");
}
static void stops_early(void) {
    sink = 0;
    for (int i = 0; i < 4; i++)
        if (guess[i] != secret_bytes[i]) return;
    sink = 1;
}
static void looks_past_the_table(void) { sink = table[secret]; }
static void stores_in_the_table(void) { table[secret & 7] = twists[secret & 7]; }
static void loads_a_byte_of_the_table(void) { sink = ((volatile uint8_t *)table)[secret]; }
static void loads_by_a_hidden_operand(void) {
    uint64_t byte = secret;
    __asm__ volatile("xlatb" : "+a"(byte) : "b"(words) : "memory");
}
static void divides(void) { sink = 1000000 / secret; }
static void selects(void) { sink = (0 - (secret >> 3 & 1)) & words[1]; }
static void looks_up(void) { sink = table[secret & 7]; }
static void compares_all(void) {
    uint8_t differ = 0;
    for (int i = 0; i < 4; i++) differ |= guess[i] ^ secret_bytes[i];
    sink = differ;
}

static const struct { const char *name; void (*call)(void); enum outcome outcome; } known[] = {
    {"branches on a secret", branches, OTHER_INSTRUCTION},
    {"loads by a secret index", loads, OTHER_ADDRESS},
    {"stores by a secret index", stores, OTHER_ADDRESS},
    {"repeats a string instruction as often as a secret says", repeats, OTHER_ADDRESS},
    {"compares, and stops at the first byte that differs", stops_early, OTHER_INSTRUCTION},
    {"looks up past the table", looks_past_the_table, OTHER_ADDRESS},
    {"stores in the table by a secret index", stores_in_the_table, OTHER_ADDRESS},
    {"loads a byte of the table by a secret index", loads_a_byte_of_the_table, OTHER_ADDRESS},
    {"loads by an operand that is not written out", loads_by_a_hidden_operand, NOT_UNDERSTOOD},
    {"divides by a secret", divides, NOT_UNDERSTOOD},
    {"selects by a mask", selects, SAME},
    {"looks up in the table", looks_up, SAME},
    {"compares all bytes", compares_all, SAME},
};

static void what_is_noticed(void) {
    begin("calls that go wrong are noticed");
    for (unsigned i = 0; i < TWISTS; i++) table[i] = twists[i];
    table[TWISTS] = 0x12345678;
    for (size_t i = 0; i < sizeof known / sizeof *known; i++) {
        enum outcome outcome = SAME;
        for (int turn = 0; turn < 2 && outcome == SAME; turn++) {
            secret = turn ? 8 : 3;
            for (int b = 0; b < 4; b++) secret_bytes[b] = (uint8_t)secret;
            outcome = walked(known[i].call, turn == 0);
        }
        check(outcome == known[i].outcome, "a call that %s: %s, %s", known[i].name, outcomes[outcome], whereabouts());
    }
    forget_walks();
    end();
}

/* What the calls are made on. All of it stays at its place. */

static struct nk_keeper keeper;
static uint8_t bytes[NK_LENGTH_MOST + 1];
static uint64_t stamp, address;
static struct nk_answer answer;

/* What is secret: no bit, every bit, or by chance; and by chance with a block counter that carries after the second block. */
enum { NO_BIT, EVERY_BIT, BY_CHANCE, CARRIES, SECRETS };

static void fill(void *memory, size_t length, unsigned how) {
    for (size_t i = 0; i < length; i++) ((uint8_t *)memory)[i] = how == NO_BIT ? 0 : how == EVERY_BIT ? 0xff : (uint8_t)(chance() >> 32);
}

static void new_secrets(unsigned how) {
    chance_at = 1000 + how;
    fill(&stamp, sizeof stamp, how);
    fill(&address, sizeof address, how);
    fill(bytes, sizeof bytes, how);
    fill(keeper.input, sizeof keeper.input, how);
    fill(keeper.blocking, sizeof keeper.blocking, how);
    fill(keeper.fast, sizeof keeper.fast, how);
    fill(keeper.generator + 4, sizeof keeper.generator - 16, how);
    if (how == CARRIES) keeper.generator[12] = 0xfffffffe;
}

/* A keeper with the same public numbers each time: seeded at clock 5,000, both pools with credit, the timers by chance, no device new. */
static void ready(void) {
    if (nk_make(&keeper, bytes, NK_START_LENGTH).number != NK_DONE) stop("a keeper is not made");
    struct nk_ledger *l = &keeper.ledger;
    l->input = (struct nk_gauge){12000, {17, 9}};
    l->blocking = (struct nk_gauge){4000, {3, 30}};
    l->value = 77;
    l->spill = (struct nk_spill){5, 4500};
    l->seeding = (struct nk_seeding){1, 5000};
    chance_at = 1;
    for (unsigned d = 0; d < NK_DEVICES; d++) {
        keeper.clocks[d] = (uint32_t)chance();
        keeper.firsts[d] = (int32_t)chance();
        keeper.seconds[d] = 2 * (int64_t)(int32_t)chance();
        keeper.came[d] = 3;
    }
    for (unsigned d = 0; d < 4; d++) keeper.clocks[d] = 0, keeper.firsts[d] = keeper.seconds[d] = 0;
}

/* The situations. Each begins with the keeper ready. */

static void make(void) { answer = nk_make(&keeper, bytes, 48); }
static void make_not_48(void) { answer = nk_make(&keeper, bytes, 47); }

static void event(void) { answer = nk_event(&keeper, 3, 9000, stamp, 2); }
static void event_of_irregular_device(void) { answer = nk_event(&keeper, 1023, 9000, stamp, 2); }
static void event_of_device_0(void) { answer = nk_event(&keeper, 0, 9000, stamp, 2); }
static void event_of_new_device(void) { keeper.came[3] = 2; answer = nk_event(&keeper, 3, 9000, stamp, 2); }
static void event_at_the_same_clock(void) { answer = nk_event(&keeper, 3, 0, stamp, 2); }
static void event_wraps_the_pool(void) { keeper.ledger.input.spot.at = 5; answer = nk_event(&keeper, 3, 9000, stamp, 2); }
static void event_seeds(void) { keeper.ledger.seeding.mark = 0; answer = nk_event(&keeper, 3, 9000, stamp, 2); }
static void event_of_no_device(void) { answer = nk_event(&keeper, 1024, 9000, stamp, 2); }
static void event_repeated(void) { answer = nk_event(&keeper, 0, 9000, stamp, 77); }
static void event_damaged(void) { keeper.firsts[1023] = INT64_MAX; answer = nk_event(&keeper, 3, 9000, stamp, 2); }

static void interrupt_stays(void) { answer = nk_interrupt(&keeper, 5000, 7, stamp, address); }
static void interrupt_spills_by_time(void) { answer = nk_interrupt(&keeper, 9000, 7, stamp, address); }
static void interrupt_spills_by_tally(void) { keeper.ledger.spill.tally = 63; answer = nk_interrupt(&keeper, 5000, 7, stamp, address); }
static void interrupt_seeds(void) {
    keeper.ledger.seeding.mark = 0;
    keeper.ledger.input.count = 1200;
    answer = nk_interrupt(&keeper, 9000, 7, stamp, address);
}
static void interrupt_device_damaged(void) { keeper.came[512] = 4; answer = nk_interrupt(&keeper, 9000, 7, stamp, address); }
static void interrupt_damaged(void) { keeper.ledger.spill.tally = 64; answer = nk_interrupt(&keeper, 9000, 7, stamp, address); }

static void write_0(void) { answer = nk_write(&keeper, bytes, 0); }
static void write_1(void) { answer = nk_write(&keeper, bytes, 1); }
static void write_64(void) { answer = nk_write(&keeper, bytes, 64); }
static void write_100(void) { answer = nk_write(&keeper, bytes, 100); }
static void write_too_long(void) { answer = nk_write(&keeper, bytes, 4097); }
static void write_damaged(void) { keeper.ledger.input.spot.at = 128; answer = nk_write(&keeper, bytes, 64); }

static void seed(void) { answer = nk_seed(&keeper, 9000, bytes, 40, 300); }
static void seed_for_nothing(void) { keeper.ledger.seeding.mark = 0; answer = nk_seed(&keeper, 9000, bytes, 40, 0); }
static void seed_for_too_little(void) {
    keeper.ledger.seeding.mark = keeper.ledger.input.count = 0;
    answer = nk_seed(&keeper, 9000, bytes, 40, 170);
}
static void seed_seeds(void) {
    keeper.ledger.seeding.mark = keeper.ledger.input.count = 0;
    answer = nk_seed(&keeper, 9000, bytes, 40, 171);
}
static void seed_for_much(void) { keeper.ledger.seeding.mark = 0; answer = nk_seed(&keeper, 9000, bytes, 512, 4096); }
static void seed_for_too_much(void) { answer = nk_seed(&keeper, 9000, bytes, 40, 321); }
static void seed_too_long(void) { answer = nk_seed(&keeper, 9000, bytes, 4097, 300); }
static void seed_damaged(void) { keeper.ledger.input.count = 32769; answer = nk_seed(&keeper, 9000, bytes, 40, 300); }

static void read_0(void) { answer = nk_read(&keeper, 9000, bytes, 0); }
static void read_1(void) { answer = nk_read(&keeper, 9000, bytes, 1); }
static void read_15(void) { answer = nk_read(&keeper, 9000, bytes, 15); }
static void read_32(void) { answer = nk_read(&keeper, 9000, bytes, 32); }
static void read_64(void) { answer = nk_read(&keeper, 9000, bytes, 64); }
static void read_100(void) { answer = nk_read(&keeper, 9000, bytes, 100); }
static void read_15_reseeds(void) { answer = nk_read(&keeper, 305001, bytes, 15); }
static void read_100_reseeds(void) { keeper.ledger.input.count = 1500; answer = nk_read(&keeper, 900000, bytes, 100); }
static void read_1_reseeds(void) { keeper.ledger.input.count = 1088; answer = nk_read(&keeper, 900000, bytes, 1); }
static void read_cannot_reseed(void) { keeper.ledger.input.count = 1023; answer = nk_read(&keeper, 900000, bytes, 32); }
static void read_unseeded(void) { keeper.ledger.seeding.mark = 0; answer = nk_read(&keeper, 9000, bytes, 32); }
static void read_too_long(void) { answer = nk_read(&keeper, 9000, bytes, 4097); }
static void read_damaged(void) { keeper.generator[2] ^= 1; answer = nk_read(&keeper, 9000, bytes, 32); }

static void blocking_0(void) { answer = nk_blocking_read(&keeper, bytes, 0); }
static void blocking_1(void) { answer = nk_blocking_read(&keeper, bytes, 1); }
static void blocking_32(void) { answer = nk_blocking_read(&keeper, bytes, 32); }
static void blocking_brings_over(void) { keeper.ledger.blocking.count = 0; answer = nk_blocking_read(&keeper, bytes, 16); }
static void blocking_brings_much_over(void) { keeper.ledger.blocking.count = 0; answer = nk_blocking_read(&keeper, bytes, 72); }
static void blocking_has_a_part(void) {
    keeper.ledger.input.count = 100;
    keeper.ledger.blocking.count = 700;
    answer = nk_blocking_read(&keeper, bytes, 32);
}
static void blocking_would_block(void) {
    keeper.ledger.blocking.count = 63;
    keeper.ledger.input.count = 511;
    answer = nk_blocking_read(&keeper, bytes, 16);
}
static void blocking_too_long(void) { answer = nk_blocking_read(&keeper, bytes, 4097); }
static void blocking_damaged(void) { keeper.ledger.blocking.spot.turn = 32; answer = nk_blocking_read(&keeper, bytes, 16); }

/* A situation, with what the call must answer there, so that it is the one that its name says. */
struct situation {
    const char *front; /* null: one more situation of the call above */
    const char *name;
    void (*call)(void);
    uint32_t number, blocks, compressions;
    int adds;
};

static const struct situation situations[] = {
    {"nk_make", "a start of 48 bytes", make, NK_DONE, 0, 0, 0},
    {NULL, "a start of 47 bytes", make_not_48, NK_START_NOT_48, 0, 0, 0},
    {"nk_event", "credited", event, NK_DONE, 0, 0, 1},
    {NULL, "an irregular device", event_of_irregular_device, NK_DONE, 0, 0, 1},
    {NULL, "device 0", event_of_device_0, NK_DONE, 0, 0, 1},
    {NULL, "a new device", event_of_new_device, NK_DONE, 0, 0, 0},
    {NULL, "the same clock again", event_at_the_same_clock, NK_DONE, 0, 0, 0},
    {NULL, "the position comes to 0", event_wraps_the_pool, NK_DONE, 0, 0, 1},
    {NULL, "seeds", event_seeds, NK_DONE, 0, 32, 1},
    {NULL, "no such device", event_of_no_device, NK_NO_SUCH_DEVICE, 0, 0, 0},
    {NULL, "repeated", event_repeated, NK_REPEATED, 0, 0, 0},
    {NULL, "out of range", event_damaged, NK_OUT_OF_RANGE, 0, 0, 0},
    {"nk_interrupt", "stays", interrupt_stays, NK_DONE, 0, 0, 0},
    {NULL, "spills by time", interrupt_spills_by_time, NK_DONE, 0, 0, 1},
    {NULL, "spills by tally", interrupt_spills_by_tally, NK_DONE, 0, 0, 1},
    {NULL, "seeds", interrupt_seeds, NK_DONE, 0, 16, 1},
    {NULL, "out of range", interrupt_damaged, NK_OUT_OF_RANGE, 0, 0, 0},
    {NULL, "a timer out of range", interrupt_device_damaged, NK_OUT_OF_RANGE, 0, 0, 0},
    {"nk_write", "0 bytes", write_0, NK_DONE, 0, 0, 0},
    {NULL, "1 byte", write_1, NK_DONE, 0, 0, 0},
    {NULL, "64 bytes", write_64, NK_DONE, 0, 0, 0},
    {NULL, "100 bytes", write_100, NK_DONE, 0, 0, 0},
    {NULL, "too long", write_too_long, NK_TOO_LONG, 0, 0, 0},
    {NULL, "out of range", write_damaged, NK_OUT_OF_RANGE, 0, 0, 0},
    {"nk_seed", "seeded already", seed, NK_DONE, 0, 0, 1},
    {NULL, "no credit", seed_for_nothing, NK_DONE, 0, 0, 0},
    {NULL, "a bit too little", seed_for_too_little, NK_DONE, 0, 0, 1},
    {NULL, "seeds", seed_seeds, NK_DONE, 0, 16, 1},
    {NULL, "seeds, and is credited in two turns", seed_for_much, NK_DONE, 0, 32, 1},
    {NULL, "credit too high", seed_for_too_much, NK_CREDIT_TOO_HIGH, 0, 0, 0},
    {NULL, "too long", seed_too_long, NK_TOO_LONG, 0, 0, 0},
    {NULL, "out of range", seed_damaged, NK_OUT_OF_RANGE, 0, 0, 0},
    {"nk_read", "0 bytes", read_0, NK_DONE, 0, 0, 0},
    {NULL, "1 byte", read_1, NK_DONE, 1, 0, 0},
    {NULL, "15 bytes", read_15, NK_DONE, 1, 0, 0},
    {NULL, "32 bytes", read_32, NK_DONE, 1, 0, 0},
    {NULL, "64 bytes", read_64, NK_DONE, 2, 0, 0},
    {NULL, "100 bytes", read_100, NK_DONE, 3, 0, 0},
    {NULL, "15 bytes, seeds anew", read_15_reseeds, NK_DONE, 1, 32, 0},
    {NULL, "100 bytes, seeds anew", read_100_reseeds, NK_DONE, 3, 24, 0},
    {NULL, "1 byte, seeds anew by 17", read_1_reseeds, NK_DONE, 1, 16, 0},
    {NULL, "too little to seed anew", read_cannot_reseed, NK_DONE, 1, 0, 0},
    {NULL, "unseeded", read_unseeded, NK_UNSEEDED, 0, 0, 0},
    {NULL, "too long", read_too_long, NK_TOO_LONG, 0, 0, 0},
    {NULL, "out of range", read_damaged, NK_OUT_OF_RANGE, 0, 0, 0},
    {"nk_blocking_read", "0 bytes", blocking_0, NK_DONE, 0, 0, 0},
    {NULL, "1 byte", blocking_1, NK_DONE, 0, 2, 0},
    {NULL, "32 bytes", blocking_32, NK_DONE, 0, 8, 0},
    {NULL, "brings bytes over", blocking_brings_over, NK_DONE, 0, 20, 1},
    {NULL, "brings over what is credited in two turns", blocking_brings_much_over, NK_DONE, 0, 76, 1},
    {NULL, "has a part of what is asked", blocking_has_a_part, NK_DONE, 0, 2, 0},
    {NULL, "would block", blocking_would_block, NK_WOULD_BLOCK, 0, 0, 0},
    {NULL, "too long", blocking_too_long, NK_TOO_LONG, 0, 0, 0},
    {NULL, "out of range", blocking_damaged, NK_OUT_OF_RANGE, 0, 0, 0},
};

static void as_expected(const struct situation *s) {
    check(answer.number == s->number && answer.blocks == s->blocks && answer.compressions == s->compressions && (answer.added > 0) == s->adds,
        "%s: answered %u, %u blocks, %u compressions, %u added", s->name, answer.number, answer.blocks, answer.compressions, answer.added);
}

static void same_by_all_secrets(const struct situation *s, void (*prepare)(unsigned how)) {
    for (unsigned how = 0; how < SECRETS; how++) {
        ready();
        prepare(how);
        enum outcome outcome = walked(s->call, how == 0);
        check(outcome == SAME, "%s, secrets %u: %s, %s", s->name, how, outcomes[outcome], whereabouts());
        as_expected(s);
    }
}

static void each_situation(const struct situation *s, size_t count, void (*prepare)(unsigned how)) {
    for (size_t i = 0; i < count;) {
        begin(s[i].front);
        do same_by_all_secrets(&s[i], prepare);
        while (++i < count && !s[i].front);
        end();
    }
}

/* The desk. Beside the keeper's secrets the remembered numbers are secret. How many draws repeat is not: it shows in the answer. */

enum { NO_SUCH_CLASS = 13, ALL_REPEAT = 14, DRAWS = 4 };

static struct nk_desk desk;
static uint8_t field[2] = {NK_LIVE, NK_LIVE};

/* the clock of the calls on a desk, where it is not another one on purpose */
static uint32_t asked_at = 9000;

static void issue_at(uint32_t now, size_t len) { answer = nk_issue(&keeper, &desk, now, field, len).answer; }
static void issue(void) { issue_at(asked_at, 1); }
static void issue_from_none(void) { desk.count = 0; issue(); }
static void issue_reseeds(void) { issue_at(900000, 1); }
static void issue_drill(void) { field[0] = NK_DRILL; issue(); }
static void issue_no_class(void) { field[0] = 0; issue(); }
static void issue_short(void) { issue_at(9000, 0); }
static void issue_long(void) { issue_at(9000, 2); }
static void issue_unseeded(void) { keeper.ledger.seeding.mark = 0; issue(); }
static void issue_damaged(void) { keeper.came[0] = 4; issue(); }
static void issue_desk_damaged(void) { desk.count = NK_REMEMBERED + 1; issue(); }

static const struct situation desk_situations[] = {
    {"nk_issue", "a full desk", issue, NK_DONE, 1, 0, 0},
    {NULL, "an empty desk", issue_from_none, NK_DONE, 1, 0, 0},
    {NULL, "seeds anew", issue_reseeds, NK_DONE, 1, 32, 0},
    {NULL, "a drill", issue_drill, NK_DONE, 1, 0, 0},
    {NULL, "no such class", issue_no_class, NO_SUCH_CLASS, 0, 0, 0},
    {NULL, "a class of no byte", issue_short, NO_SUCH_CLASS, 0, 0, 0},
    {NULL, "a class of two bytes", issue_long, NO_SUCH_CLASS, 0, 0, 0},
    {NULL, "unseeded", issue_unseeded, NK_UNSEEDED, 0, 0, 0},
    {NULL, "keeper out of range", issue_damaged, NK_OUT_OF_RANGE, 0, 0, 0},
    {NULL, "desk out of range", issue_desk_damaged, NK_OUT_OF_RANGE, 0, 0, 0},
};

static void new_desk_secrets(unsigned how) {
    new_secrets(how);
    fill(desk.numbers, sizeof desk.numbers, how);
    desk.count = NK_REMEMBERED;
    field[0] = NK_LIVE;
}

/* The numbers that the next draws make, worked out on a copy of the keeper. */
static uint8_t drawn[DRAWS][NK_NUMBER_LENGTH];

static void foresee(void) {
    static struct nk_keeper copy;
    copy = keeper;
    for (int d = 0; d < DRAWS; d++) {
        drawn[d][0] = field[0];
        if (nk_read(&copy, asked_at, drawn[d] + 1, NK_NUMBER_LENGTH - 1).number != NK_DONE) stop("what is drawn cannot be foreseen");
    }
}

static void remember(unsigned place, unsigned draw) {
    memcpy(desk.numbers[place], drawn[draw], NK_NUMBER_LENGTH);
}

/* Numbers that differ from a drawn one in one byte, each draw's in each of the 16 where the desk is full: so many first bytes are equal. */
static void remember_nearly(void) {
    for (unsigned place = 0; place < NK_REMEMBERED; place++) {
        remember(place, (place + place / NK_NUMBER_LENGTH) % DRAWS);
        desk.numbers[place][5 * (place + 1) % NK_NUMBER_LENGTH] ^= (uint8_t)(1u << place % 8);
    }
}

/* Where the draws that repeat stand. */
enum { FIRST, SECOND, MIDDLE, LAST, TWICE, WHERES };
static const char *const wheres[WHERES] = {"first", "second", "middle", "last", "twice"};

static void remember_repeats(unsigned where, unsigned count, unsigned repeats) {
    for (unsigned d = 0; d < repeats; d++) {
        unsigned place = where == SECOND ? d + 1 : where == MIDDLE ? count / 2 + d : where == LAST ? count - 1 - d : d;
        remember(place % count, d);
        if (where == TWICE && 2 * repeats <= count) remember(count - 1 - d, d);
    }
}

/* What else is remembered: filled as secrets are, or nearly equal. */
enum { NEARLY = SECRETS, OTHERS };

/* Everything that may not be told from a walk, by one number: what is drawn, where the repeats stand, what else is remembered, and whether the
   free places have numbers that would repeat if they counted. */
static void arrange(unsigned variant, unsigned count, unsigned repeats) {
    unsigned others = (variant + repeats) % OTHERS;
    ready();
    new_desk_secrets(variant % SECRETS);
    foresee();
    if (others == NEARLY) remember_nearly();
    else fill(desk.numbers, sizeof desk.numbers, others);
    for (unsigned place = count; variant % 2 == 0 && place < NK_REMEMBERED; place++) remember(place, place % DRAWS);
    remember_repeats(variant % WHERES, count, repeats);
    desk.count = count;
}

enum { VARIANTS = 6 };

static void same_wherever(unsigned count, unsigned repeats, unsigned compressions) {
    const struct situation expected = {
        NULL, "desk", issue, repeats == DRAWS ? ALL_REPEAT : NK_DONE, repeats == DRAWS ? DRAWS : repeats + 1, compressions, 0};
    for (unsigned v = 0; v < VARIANTS; v++) {
        arrange(v, count, repeats);
        enum outcome outcome = walked(issue, v == 0);
        check(outcome == SAME, "%u remembered, %u repeat, variant %u (%s): %s, %s", count, repeats, v, wheres[v % WHERES], outcomes[outcome],
            whereabouts());
        as_expected(&expected);
    }
}

static void the_desk(void) {
    static const unsigned counts[] = {0, 1, 5, NK_REMEMBERED - 1, NK_REMEMBERED};
    each_situation(desk_situations, sizeof desk_situations / sizeof *desk_situations, new_desk_secrets);
    begin("nk_issue, wherever a remembered number stands that a draw repeats");
    for (size_t i = 0; i < sizeof counts / sizeof *counts; i++)
        for (unsigned repeats = 0; repeats <= DRAWS && repeats <= counts[i]; repeats++) same_wherever(counts[i], repeats, 0);
    asked_at = 900000; /* the first draw seeds anew, and then draws repeat */
    for (unsigned repeats = 1; repeats <= DRAWS; repeats++) same_wherever(NK_REMEMBERED, repeats, 32);
    asked_at = 9000;
    end();
}

/* The only places where an address was not the same. */
static void where_the_table_is_looked_up(void) {
    begin("the twist table's index is by a secret");
    unsigned look_up = 0, varied = 0;
    for (size_t i = 0; i < program_length; i++) {
        look_up += program[i].looks_up != 0;
        varied += program[i].varied != 0;
        if (program[i].varied) printf("  %s\n", program[i].text);
    }
    check(varied > 0, "no instruction looked up another word by another secret");
    printf("  %u instructions look a word up in the table, %u of them another one by another secret, %" PRIu64 " times\n", look_up, varied,
        places_varied);
    end();
}

/* Functions of the archive: the calls, and those that have the path of a crate for a name. */
static int is_of_the_archive(const struct instruction *i) {
    const char *end = strchr(i->text, '>'), *path = strstr(i->text, "::");
    return strncmp(i->text, "<nk_", 4) == 0 || (path && path < end);
}

static int is_padding(const struct instruction *i) {
    return strstr(i->text, "nop") || strstr(i->text, "xchg %ax,%ax");
}

/* Nothing is said of an instruction that no walk came to. */
static void how_much_was_walked(void) {
    begin("nine of ten instructions of the archive were walked");
    unsigned all = 0, ran = 0;
    for (size_t i = 0; i < program_length; i++) {
        if (!is_of_the_archive(&program[i]) || is_padding(&program[i])) continue;
        all++;
        ran += program[i].ran != 0;
    }
    check(all > 0 && 10 * ran >= 9 * all, "%u of %u were", ran, all);
    printf("  %u of %u instructions, %" PRIu64 " steps, %" PRIu64 " addresses compared\n", ran, all, steps_walked, addresses_compared);
    end();
}

int main(int argc, char **argv) {
    if (argc != 2) stop("the file of operands is not given");
    read_program(argv[1]);
    what_is_noticed();
    each_situation(situations, sizeof situations / sizeof *situations, new_secrets);
    the_desk();
    where_the_table_is_looked_up();
    how_much_was_walked();
    return counted();
}
