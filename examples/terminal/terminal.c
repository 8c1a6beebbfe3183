#include "terminal.h"

#include <string.h>

#include "board.h"
#include "forget.h"
#include "store.h"

enum {
    SEED_CREDIT = 171,    /* the least that seeds an empty keeper: 128 bits, as it counts. A seed comes from a generator that was seeded
                             with as much; it may hold more, and nobody knows how much */
    SEED_EVERY = 3600000, /* ticks: an hour */
    RESTARTS_MOST = 16    /* each wears the non-volatile memory, and memory that is hit so often is not fit to hold keys */
};

/* One keeper: whether it can be called, and what follows from what it answers. */

/* Any change of one word of the record or of the desk changes this: it moves the seal by an odd number of times as much. The order of the
 * words counts too. Both have 23 KB, most of it timers, and are sealed twice for each call; so a word costs two additions and no more, and
 * words at even and at odd places do not wait for one another. */
struct sums {
    uint64_t even, evens, odd, odds;
};

static struct sums add_words(struct sums s, const void *memory, size_t len) {
    uint64_t words[2];
    for (size_t i = 0; i < len; i += sizeof words) {
        memcpy(words, (const uint8_t *)memory + i, sizeof words);
        s.even += words[0];
        s.evens += s.even;
        s.odd += words[1];
        s.odds += s.odd;
    }
    return s;
}

static uint64_t seal_of(const struct terminal *t) {
    _Static_assert(sizeof t->keeper % 16 == 0 && sizeof t->desk.numbers % 16 == 0, "no word is left over");
    struct sums s = {t->desk.count, 1, 0, 0};
    s = add_words(s, &t->keeper, sizeof t->keeper);
    s = add_words(s, t->desk.numbers, sizeof t->desk.numbers);
    return (s.even + 2 * s.evens) + 3 * (s.odd + 2 * s.odds);
}

/* A damaged record is wiped at once, with all that came from it; the next turn makes a new keeper. The desk goes too, whichever of the two
 * was hit: memory that was hit in one place is not believed in another. */
static void give_up(struct terminal *t, uint32_t number) {
    forget(&t->keeper, sizeof t->keeper);
    forget(&t->desk, sizeof t->desk);
    forget(t->lasting, sizeof t->lasting);
    t->lasting_length = 0;
    t->wants_noise = t->seed_kept = false;
    t->state = TERMINAL_DAMAGED;
    board_report(REPORT_DAMAGED, number);
}

/* Whether there is a keeper, and its record and its desk are as the last call left them. The keeper itself sees damage where a field is out
 * of range; credit that came from nowhere, a mark that turned into "seeded" and a desk that forgot some numbers are in range. */
static bool ready(struct terminal *t) {
    if (t->state == TERMINAL_RUNNING && t->seal != seal_of(t)) give_up(t, 0);
    return t->state == TERMINAL_RUNNING;
}

static enum terminal_answer not_ready(const struct terminal *t) {
    return t->state == TERMINAL_DAMAGED ? TERMINAL_LATER : TERMINAL_OUT;
}

/* What follows from an answer: for each refusal something else. Only a damaged record is given up, and one whose draws repeat: any other
 * refusal has changed nothing, and the keeper is as good as before.
 *
 * Four draws in a row that all were message numbers before are no chance, which would need some 2^114 numbers for a single one. This record
 * was here before: an older one came back, and what it draws next, keys too, was drawn once already. Asking again would get past the
 * numbers that the desk remembers, and not past the keys; so it is not asked again, but given up like a damaged one. */
static enum terminal_answer judged(struct terminal *t, struct nk_answer a) {
    t->seal = seal_of(t);
    switch (a.number) {
    case NK_DONE: return TERMINAL_DONE;
    case NK_REPEATED: return TERMINAL_DONE; /* a key that is held down: no news, and no trouble */
    case NK_WOULD_BLOCK: return TERMINAL_LATER; /* everyday noise will bring the credit */
    case NK_UNSEEDED: /* no key may be made yet: do not wait for everyday noise alone */
        t->wants_noise = true;
        return TERMINAL_LATER;
    case NK_OUT_OF_RANGE:
    case NK_ALL_REPEATED: give_up(t, a.number); return TERMINAL_LATER;
    case NK_TOO_LONG: /* terminal_bytes goes in parts, so this too is an error in the program */
    case NK_NO_SUCH_CLASS: /* and this: a class is handed over by the two functions below, and by nobody else */
    case NK_NO_SUCH_DEVICE:
    case NK_CREDIT_TOO_HIGH:
    case NK_START_NOT_48:
    default: board_report(REPORT_WRONG_CALL, a.number); return TERMINAL_WRONG;
    }
}

/* Starting. */

/* 48 start bytes that no other start of any device has: the device's own bytes tell devices apart, the start number the starts of one.
 * The number comes last, in words that no call ever changes, so no two starts of a device run the cipher on the same input. The stamp is
 * there because it costs nothing; nothing rests on it. */
static void lay_start_bytes(uint8_t bytes[NK_START_LENGTH], uint64_t start) {
    uint64_t stamp = board_stamp();
    memset(bytes, 0, NK_START_LENGTH);
    board_id(bytes);
    for (int i = 0; i < 8; i++) {
        bytes[BOARD_ID_LENGTH + i] = (uint8_t)(stamp >> 8 * i);
        bytes[NK_START_LENGTH - 8 + i] = (uint8_t)(start >> 8 * i);
    }
}

/* Makes a keeper from a start that was never used. The start bytes are written too: they tell generators apart, but the pools begin
 * empty, and a lasting key comes from the pools alone. */
static void begin(struct terminal *t) {
    uint8_t bytes[NK_START_LENGTH], seed[STORE_SEED_LENGTH];
    uint64_t start;
    t->state = TERMINAL_STOPPED;
    if (!store_next_start(&start)) {
        board_report(REPORT_NO_START, 0);
        return;
    }
    lay_start_bytes(bytes, start);
    if (judged(t, nk_make(&t->keeper, bytes, sizeof bytes)) == TERMINAL_DONE) t->state = TERMINAL_RUNNING;
    if (ready(t)) judged(t, nk_write(&t->keeper, bytes, sizeof bytes));
    if (ready(t) && store_take_seed(seed)) {
        judged(t, nk_seed(&t->keeper, board_ticks(), seed, sizeof seed, SEED_CREDIT));
        forget(seed, sizeof seed);
    }
    forget(bytes, sizeof bytes);
    forget_stack();
}

bool terminal_start(struct terminal *t) {
    forget(t, sizeof *t);
    begin(t);
    return t->state != TERMINAL_STOPPED;
}

/* Noise. */

enum terminal_answer terminal_event(struct terminal *t, uint32_t device, uint32_t value) {
    if (!ready(t)) return not_ready(t);
    enum terminal_answer answer = judged(t, nk_event(&t->keeper, device, board_ticks(), board_stamp(), value));
    forget_stack();
    return answer;
}

/* A number that is too high is handed on as a device that there is not, for the keeper to refuse. Added to as it is it could wrap, and the
 * sensor would be taken for the keyboard. */
enum terminal_answer terminal_sensor(struct terminal *t, uint32_t sensor, uint32_t value) {
    uint32_t device = sensor < TERMINAL_SENSORS ? TERMINAL_FIRST_SENSOR + sensor : (uint32_t)NK_DEVICES;
    return terminal_event(t, device, value);
}

void terminal_interrupt(struct terminal *t, uint32_t number, uint64_t address) {
    struct ring_entry entry = {board_ticks(), number, board_stamp(), address};
    ring_put(&t->interrupts, entry);
}

/* No more than a ring of them in one turn, however fast they come. */
static void take_interrupts(struct terminal *t) {
    struct ring_entry e;
    for (int i = 0; i < RING_LENGTH && ready(t) && ring_take(&t->interrupts, &e); i++)
        judged(t, nk_interrupt(&t->keeper, e.now, e.number, e.stamp, e.address));
}

static bool seeded(struct terminal *t) {
    return ready(t) && t->keeper.ledger.seeding.mark == 1;
}

static void gather_noise(struct terminal *t) {
    if (t->wants_noise) terminal_event(t, TERMINAL_NOISE, board_noise());
    if (seeded(t)) t->wants_noise = false;
}

/* Keys. */

enum terminal_answer terminal_bytes(struct terminal *t, uint8_t *room, size_t len) {
    enum terminal_answer answer = ready(t) ? TERMINAL_DONE : not_ready(t);
    for (size_t have = 0, part; answer == TERMINAL_DONE && have < len; have += part) {
        part = len - have < NK_LENGTH_MOST ? len - have : NK_LENGTH_MOST;
        struct nk_answer a = nk_read(&t->keeper, board_ticks(), room + have, part);
        answer = judged(t, a);
        if (answer == TERMINAL_DONE && a.delivered != part) answer = TERMINAL_WRONG; /* bytes that are not there are no bytes */
    }
    forget_stack();
    if (answer != TERMINAL_DONE) forget(room, len);
    return answer;
}

enum terminal_answer terminal_lasting_key(struct terminal *t, uint8_t key[TERMINAL_KEY_LENGTH]) {
    enum terminal_answer answer;
    if (!ready(t)) {
        answer = not_ready(t);
    } else {
        struct nk_answer a = nk_blocking_read(&t->keeper, t->lasting + t->lasting_length, TERMINAL_KEY_LENGTH - t->lasting_length);
        t->lasting_length += a.delivered;
        answer = judged(t, a);
        forget_stack();
    }
    if (answer == TERMINAL_DONE && t->lasting_length < TERMINAL_KEY_LENGTH) answer = TERMINAL_LATER;
    if (answer != TERMINAL_DONE) {
        forget(key, TERMINAL_KEY_LENGTH);
        return answer;
    }
    memcpy(key, t->lasting, TERMINAL_KEY_LENGTH);
    forget(t->lasting, sizeof t->lasting);
    t->lasting_length = 0;
    return TERMINAL_DONE;
}

/* Message numbers. */

/* The desk lives as long as its keeper, and is stored nowhere. What it guards against is a draw that comes again, and a new keeper begins
 * at a start that was never used: its numbers are none that were before, but by a chance of one in 2^120 for any two. Who wants more, 64
 * numbers that differ for certain over a power cut too, has to store the desk after each number and bring it back, as nk.h says under DESKS:
 * that is a write of a kilobyte for each message. */
static enum terminal_answer issue(struct terminal *t, uint8_t class, uint8_t number[TERMINAL_NUMBER_LENGTH]) {
    enum terminal_answer answer;
    if (!ready(t)) {
        answer = not_ready(t);
    } else {
        struct nk_issued issued = nk_issue(&t->keeper, &t->desk, board_ticks(), &class, sizeof class);
        answer = judged(t, issued.answer);
        if (answer == TERMINAL_DONE && issued.answer.delivered != TERMINAL_NUMBER_LENGTH) answer = TERMINAL_WRONG; /* no number */
        memcpy(number, issued.number, TERMINAL_NUMBER_LENGTH);
        forget_stack();
    }
    if (answer != TERMINAL_DONE) forget(number, TERMINAL_NUMBER_LENGTH);
    return answer;
}

enum terminal_answer terminal_drill_number(struct terminal *t, uint8_t number[TERMINAL_NUMBER_LENGTH]) {
    return issue(t, NK_DRILL, number);
}

enum terminal_answer terminal_live_number(struct terminal *t, uint8_t number[TERMINAL_NUMBER_LENGTH]) {
    return issue(t, NK_LIVE, number);
}

/* The main loop. */

/* Leaves a seed for the next start: as soon as there can be one, then every hour. */
static void keep_seed(struct terminal *t) {
    uint8_t seed[STORE_SEED_LENGTH];
    uint32_t now = board_ticks();
    if (!seeded(t) || (t->seed_kept && now - t->seed_kept_at < SEED_EVERY)) return;
    if (terminal_bytes(t, seed, sizeof seed) == TERMINAL_DONE) {
        if (!store_put_seed(seed)) board_report(REPORT_SEED_NOT_STORED, 0);
        t->seed_kept = true;
        t->seed_kept_at = now;
    }
    forget(seed, sizeof seed);
}

void terminal_turn(struct terminal *t) {
    if (t->state == TERMINAL_DAMAGED && t->restarts == RESTARTS_MOST) {
        board_report(REPORT_DAMAGED_TOO_OFTEN, 0);
        t->state = TERMINAL_STOPPED;
    }
    if (t->state == TERMINAL_DAMAGED) {
        t->restarts++;
        begin(t);
    }
    take_interrupts(t);
    gather_noise(t);
    keep_seed(t);
    forget_stack();
}

void terminal_stop(struct terminal *t) {
    t->seed_kept = false;
    keep_seed(t);
    forget(t, sizeof *t);
}
