/* The terminal of examples/terminal/ on a board that fails in every way it can (bad_board.h), with a keeper that is watched
 * (watched_keeper.h): whatever goes wrong, no start, no key and no message number comes twice, no seed is credited twice or without being
 * there, and the terminal goes on or says that it cannot. */
#define _XOPEN_SOURCE 700
#include <stdio.h>
#include <string.h>

#include "../examples/terminal/store.h"
#include "../examples/terminal/terminal.h"
#include "bad_board.h"
#include "chance.h"
#include "damage.h"
#include "groups.h"
#include "own_stack.h"
#include "watched_keeper.h"

/* Lives. */

static bool is_clear(const void *memory, size_t len) {
    const uint8_t *byte = memory;
    while (len-- > 0)
        if (*byte++ != 0) return false;
    return true;
}

static unsigned keys, lasting_keys; /* keys of both kinds in this life, and those that last */
static unsigned numbers;            /* message numbers in this life */

/* A key is new, or the room was cleared. */
static void look_at(enum terminal_answer answer, const uint8_t *key, const char *name) {
    if (answer == TERMINAL_DONE) {
        keys++;
        check(is_new(KEY, key, TERMINAL_KEY_LENGTH), "a %s that was there before", name);
    } else {
        check(is_clear(key, TERMINAL_KEY_LENGTH), "no %s, and the room is not cleared", name);
    }
}

static void ask_for_keys(void) {
    uint8_t key[TERMINAL_KEY_LENGTH];
    memset(key, 0xee, sizeof key);
    look_at(terminal_bytes(&terminal, key, sizeof key), key, "session key");
    if (script % 8 != 0) return;
    memset(key, 0xee, sizeof key);
    enum terminal_answer answer = terminal_lasting_key(&terminal, key);
    look_at(answer, key, "lasting key");
    if (answer != TERMINAL_DONE) return;
    check(lasting_length == sizeof key && memcmp(key, lasting_bytes, sizeof key) == 0, "a lasting key that was not delivered in full");
    lasting_length = 0;
    lasting_keys++;
}

static enum terminal_answer ask_for_number(uint8_t class, uint8_t number[TERMINAL_NUMBER_LENGTH]) {
    memset(number, 0xee, TERMINAL_NUMBER_LENGTH);
    return class == NK_DRILL ? terminal_drill_number(&terminal, number) : terminal_live_number(&terminal, number);
}

/* A number of the class that was asked for is new, and the desk's newest; or the room was cleared. */
static enum terminal_answer look_at_number(uint8_t class) {
    uint8_t number[TERMINAL_NUMBER_LENGTH];
    enum terminal_answer answer = ask_for_number(class, number);
    const struct nk_desk *d = &terminal.desk;
    if (answer == TERMINAL_DONE) {
        numbers++;
        check(number[0] == class && is_new(NUMBER, number, sizeof number), "a message number that was there before, or another class");
        check(d->count >= 1 && d->count <= NK_REMEMBERED && memcmp(d->numbers[d->count - 1], number, sizeof number) == 0,
            "a message number that the desk does not remember");
    } else {
        check(is_clear(number, sizeof number), "no message number, and the room is not cleared");
    }
    return answer;
}

static void ask_for_numbers(void) {
    if (script % 4 == 1) look_at_number(NK_DRILL);
    if (script % 4 == 3) look_at_number(NK_LIVE);
}

/* Time goes by in uneven steps, so that a keeper without a seed is seeded after some fifteen of them: its devices are new, and earn nothing
   in the first three. */
static void step(void) {
    uint32_t x = ++script * 0x9e3779b1u;
    ticks += 50 + ((x ^ x >> 15) * 0x85ebca77u >> 19);
}

/* One turn of the main loop, and what the outside world does in it. */
static void turn(void) {
    step();
    terminal_event(&terminal, TERMINAL_KEYBOARD, script * 13 & 0x7f);
    terminal_event(&terminal, TERMINAL_RADIO, script);
    terminal_sensor(&terminal, script * 37 % TERMINAL_SENSORS, script);
    terminal_interrupt(&terminal, interrupts_sent++, 0x08000000u + 4 * script);
    terminal_turn(&terminal);
    ask_for_keys();
    ask_for_numbers();
}

/* Power comes on; memory holds anything then. */
static void power_on(void) {
    moments = writes = reads = keys = lasting_keys = numbers = 0;
    ticks = script = interrupts_sent = interrupts_come = 0;
    memset(&terminal, 0xa5, sizeof terminal);
    may_make = true;
}

enum ending { SHUT_DOWN, UNPLUGGED };

/* A life of so many turns, if power stays on. Gives whether the terminal had a keeper at the start. */
static bool life(unsigned turns, enum ending ending) {
    static bool started; /* static, because a jump leaves other variables unknown */
    static unsigned i;
    started = false;
    power_on();
    if (setjmp(power) == 0) {
        started = terminal_start(&terminal);
        for (i = 0; i < turns; i++) turn();
        if (ending == SHUT_DOWN) {
            terminal_stop(&terminal);
            check(is_clear(&terminal, sizeof terminal), "something stays in memory after the shutdown");
        }
    }
    return started;
}

static void all_well(void) {
    memset(&plan, 0, sizeof plan);
}

/* A life in which nothing goes wrong. With a seed, keys come at the first turn. */
static void good_life(const char *after) {
    all_well();
    check(life(17, SHUT_DOWN) && keys >= 2, "after %s: no keys", after);
}

static void commission_all(void) {
    for (unsigned d = 0; d < DEVICES; d++) {
        here = devices + d;
        memset(here->cells, 0xff, sizeof here->cells);
        memcpy(here->id, "terminal no. 000", BOARD_ID_LENGTH);
        here->id[BOARD_ID_LENGTH - 1] = (uint8_t)('0' + d);
        all_well();
        check(store_commission(0), "device %u cannot be commissioned", d);
    }
    here = devices;
}

static unsigned service_series;

/* What service does where the start number was lost. */
static void commission_again(void) {
    all_well();
    moments = writes = reads = 0;
    check(store_commission(++service_series), "service cannot commission the device");
}

/* The check value of a cell, CRC-32 over its number, the device and the bytes; and a start number as it lies in its cell, with a mark
   before and the check value behind. Written apart from the terminal's own code, so that a terminal that is given new code goes on from
   the number that it had. */
enum { START_CELL = 16 };

static uint32_t check_value(enum board_cell cell, const uint8_t *bytes, size_t len) {
    uint8_t covered[1 + BOARD_ID_LENGTH + CELL_LENGTH] = {(uint8_t)cell};
    uint32_t sum = 0xffffffffu;
    memcpy(covered + 1, here->id, BOARD_ID_LENGTH);
    memcpy(covered + 1 + BOARD_ID_LENGTH, bytes, len);
    for (size_t bit = 0; bit < 8 * (1 + BOARD_ID_LENGTH + len); bit++)
        sum = sum >> 1 ^ ((sum ^ covered[bit / 8] >> bit % 8) & 1 ? 0xedb88320u : 0);
    return ~sum;
}

static void lay_start(uint8_t *to, enum board_cell cell, uint64_t start) {
    static const uint8_t mark[4] = {'N', 'K', 'c', 1};
    memcpy(to, mark, 4);
    for (int i = 0; i < 8; i++) to[4 + i] = (uint8_t)(start >> 8 * i);
    for (int i = 0; i < 4; i++) to[12 + i] = (uint8_t)(check_value(cell, to, 12) >> 8 * i);
}

/* The groups. */

static void quiet_lives(void) {
    begin("lives in which nothing goes wrong, on devices that hear the same");
    commission_all();
    for (unsigned round = 0; round < 6; round++)
        for (unsigned d = 0; d < DEVICES; d++) {
            unsigned made = makes, credited = credits;
            here = devices + d;
            all_well();
            check(life(80, round % 2 ? SHUT_DOWN : UNPLUGGED), "device %u does not start", d);
            check(makes == made + 1, "device %u: %u keepers were made", d, makes - made);
            check(credits == credited + (round > 0), "device %u, life %u: the stored seed was not taken", d, round);
            check(round == 0 ? keys > 50 && keys < 80 : keys >= 80, "device %u, life %u: %u keys", d, round, keys);
            check(lasting_keys > 0, "device %u, life %u: no lasting key", d, round);
            check(numbers >= 25 && numbers <= 40, "device %u, life %u: %u message numbers", d, round, numbers);
        }
    here = devices;

    /* a new seed every hour, also where the clock wraps, and at the shutdown */
    uint8_t before[CELL_LENGTH];
    all_well();
    power_on();
    check(terminal_start(&terminal), "no start");
    turn();
    for (unsigned hour = 0; hour < 3; hour++) {
        memcpy(before, here->cells[CELL_SEED], CELL_LENGTH);
        ticks += 3599000;
        terminal_turn(&terminal);
        check(memcmp(before, here->cells[CELL_SEED], CELL_LENGTH) == 0, "a new seed before the hour is over");
        ticks += 2000;
        terminal_turn(&terminal);
        check(memcmp(before, here->cells[CELL_SEED], CELL_LENGTH) != 0, "no new seed after an hour");
        if (hour == 0) ticks += 0xffffffffu - 3 * 3600000u, terminal_turn(&terminal);
    }
    memcpy(before, here->cells[CELL_SEED], CELL_LENGTH);
    terminal_stop(&terminal);
    check(memcmp(before, here->cells[CELL_SEED], CELL_LENGTH) != 0, "no new seed at the shutdown");
    end();
}

/* A terminal that goes in parts, leaves out what is repeated, and does not begin anew because a call was wrong. */
static void everyday_refusals(void) {
    static uint8_t large[3 * NK_LENGTH_MOST + 5];
    begin("everyday refusals");
    all_well();
    power_on();
    check(terminal_start(&terminal), "no start");
    turn();
    unsigned made = makes;
    check(terminal_bytes(&terminal, large, sizeof large) == TERMINAL_DONE, "a long room is not filled");
    check(!is_clear(large + sizeof large - 32, 32), "the end of a long room is not filled");
    for (size_t i = 0; i + 32 <= sizeof large; i += 32) check(is_new(KEY, large + i, 32), "bytes that were there before");
    static struct nk_keeper before;
    before = terminal.keeper;
    for (uint32_t device = NK_DEVICES; device < NK_DEVICES + 24; device++)
        check(terminal_event(&terminal, device, 1) == TERMINAL_WRONG, "device %u is taken", device);
    check(memcmp(&before, &terminal.keeper, sizeof before) == 0, "a device that is not there changes the record");
    check(reports[REPORT_WRONG_CALL] == 24, "wrong calls are not reported");
    check(terminal_event(&terminal, TERMINAL_KEYBOARD, 0x999) == TERMINAL_DONE, "a key is not taken");
    check(terminal_event(&terminal, TERMINAL_KEYBOARD, 0x999) == TERMINAL_DONE, "a key that is held down is trouble");
    check(makes == made, "a refusal leads to a new keeper");
    end();
}

/* A sensor of the rig has a device of its own, up to the last that the keeper has; a number that is too high is refused, also where it
   would come round to another device. */
static void sensors(void) {
    static const uint32_t there[] = {0, 1, 155, 156, 412, 922, 923};
    static const uint32_t not_there[] = {924, 925, 1023, 1024, 0xffff, 0x10000, 0x7fffffff, UINT32_MAX - 100, UINT32_MAX - 99,
        UINT32_MAX - 98, UINT32_MAX};
    static struct nk_keeper before;
    begin("sensors of the rig, up to the last, and none past it");
    check((int)TERMINAL_FIRST_SENSOR + (int)TERMINAL_SENSORS == (int)NK_DEVICES, "the sensors are not the keeper's last devices");
    good_life("sensors");
    power_on();
    check(terminal_start(&terminal), "no start");
    for (unsigned i = 0; i < sizeof there / sizeof *there; i++) {
        uint32_t device = 100 + there[i];
        before = terminal.keeper;
        ticks += 777;
        check(terminal_sensor(&terminal, there[i], 5) == TERMINAL_DONE, "sensor %u is refused", there[i]);
        check(terminal.keeper.came[device] == 1 && terminal.keeper.clocks[device] == ticks, "sensor %u: not device %u", there[i], device);
        before.came[device] = 1;
        check(memcmp(before.came, terminal.keeper.came, sizeof before.came) == 0, "sensor %u counts for another device", there[i]);
    }
    before = terminal.keeper;
    unsigned told = reports[REPORT_WRONG_CALL], made = makes;
    for (unsigned i = 0; i < sizeof not_there / sizeof *not_there; i++) {
        check(terminal_sensor(&terminal, not_there[i], 5) == TERMINAL_WRONG, "sensor %u is taken", not_there[i]);
        check(reports[REPORT_WRONG_CALL] == told + i + 1, "sensor %u is not reported", not_there[i]);
    }
    check(memcmp(&before, &terminal.keeper, sizeof before) == 0 && makes == made, "a sensor that is not there changes something");
    end();
}

/* Numbers of both classes on end, more than the desk remembers; and what is there of them after a start: nothing. */
static void message_numbers(void) {
    begin("message numbers, and their desk");
    good_life("message numbers");
    power_on();
    check(terminal_start(&terminal) && is_clear(&terminal.desk, sizeof terminal.desk), "no start, or one with numbers at the desk");
    turn();
    for (unsigned i = 0; i < 150; i++) {
        uint32_t before = terminal.desk.count, after = before < NK_REMEMBERED ? before + 1 : NK_REMEMBERED;
        check(look_at_number(i % 3 ? NK_DRILL : NK_LIVE) == TERMINAL_DONE, "number %u is refused", i);
        check(terminal.desk.count == after, "number %u: %u remembered", i, terminal.desk.count);
    }
    terminal_stop(&terminal);
    check(ask_for_number(NK_LIVE, (uint8_t[TERMINAL_NUMBER_LENGTH]){0}) == TERMINAL_OUT, "a number of a terminal that was stopped");

    /* before there is noise: later, and noise is gathered */
    memset(here->cells[CELL_SEED], 0, CELL_LENGTH);
    power_on();
    check(terminal_start(&terminal), "no start");
    check(look_at_number(NK_DRILL) == TERMINAL_LATER && terminal.wants_noise, "a number without noise, or none is gathered");
    check(terminal.desk.count == 0 && terminal.state == TERMINAL_RUNNING, "a number that comes later changes something");
    for (unsigned n = 0; n < 40; n++) turn();
    check(numbers > 0, "no number afterwards");
    end();
}

/* The record goes back to what it was before the last numbers, and no seal shows it. Up to three that come again are drawn again; at the
   fourth it is given up, for what it draws next was drawn before. */
static void record_goes_back(void) {
    static uint32_t older[NK_GENERATOR_WORDS];
    begin("a record that goes back to what it was: its numbers repeat, and it is given up");
    for (unsigned again = 1; again <= 6; again++)
        for (unsigned class = 0; class < 2; class++) {
            good_life("a record that goes back");
            power_on();
            check(terminal_start(&terminal), "no start");
            turn();
            for (unsigned n = 0; n < 70 * class; n++) look_at_number(NK_DRILL); /* at a full desk, and at one that is not */
            memcpy(older, terminal.keeper.generator, sizeof older);
            for (unsigned n = 0; n < again; n++) check(look_at_number(NK_LIVE) == TERMINAL_DONE, "no number");
            unsigned made = makes, told = reports[REPORT_DAMAGED];
            older_generator = older;
            enum terminal_answer answer = look_at_number(NK_LIVE);
            if (again < 4) {
                check(answer == TERMINAL_DONE && terminal.state == TERMINAL_RUNNING, "%u numbers repeat: answered %d", again, (int)answer);
            } else {
                check(answer == TERMINAL_LATER && terminal.state == TERMINAL_DAMAGED, "%u numbers repeat: answered %d", again, (int)answer);
                check(is_clear(&terminal.keeper, sizeof terminal.keeper) && is_clear(&terminal.desk, sizeof terminal.desk), "not wiped");
            }
            check(reports[REPORT_DAMAGED] == told + (again >= 4), "%u numbers repeat: reported or not", again);
            check(makes == made, "a keeper is made in the middle of a call");
            if (again >= 4) turn(); /* with fewer the keys would come again, as this test knows and the terminal does not */
            check(makes == made + (again >= 4), "%u numbers repeat: %u keepers were made", again, makes - made);
            if (again >= 4) check(look_at_number(NK_LIVE) == TERMINAL_DONE, "no number of the new keeper");
        }
    end();
}

/* Every answer in the place of the true one: at an event, a read, a blocking read and an issue of a keeper that runs well. */
static void answered_while_running(uint32_t number) {
    for (unsigned i = 0; i < 4; i++) {
        static const enum call calls[4] = {EVENT, READ, BLOCKING_READ, ISSUE};
        const char *name = call_names[calls[i]];
        uint8_t key[TERMINAL_KEY_LENGTH];
        good_life("another answer");
        power_on();
        check(terminal_start(&terminal), "no start");
        turn();
        unsigned made = makes, told = reports[REPORT_WRONG_CALL];

        pretends = true;
        pretended_call = calls[i];
        pretended_number = number;
        memset(key, 0xee, sizeof key);
        enum terminal_answer answer = i == 0   ? terminal_event(&terminal, TERMINAL_RADIO, 5)
                                      : i == 1 ? terminal_bytes(&terminal, key, sizeof key)
                                      : i == 2 ? terminal_lasting_key(&terminal, key)
                                               : ask_for_number(NK_DRILL, key);
        if (i == 3) memset(key + TERMINAL_NUMBER_LENGTH, 0, sizeof key - TERMINAL_NUMBER_LENGTH);
        pretends = false;

        /* 7 is no trouble at an event; at the reads and the issue, where it never comes, it brings no bytes */
        static const enum terminal_answer repeated[4] = {TERMINAL_DONE, TERMINAL_WRONG, TERMINAL_LATER, TERMINAL_WRONG};
        bool gives_up = number == 14 || number == 17, later = number <= 2 || gives_up;
        enum terminal_answer right = number == 7 ? repeated[i] : later ? TERMINAL_LATER : TERMINAL_WRONG;
        check(answer == right, "%u at %s: answered %d", number, name, (int)answer);
        check(i == 0 || is_clear(key, sizeof key), "%u at %s: the room is not cleared", number, name);
        check((reports[REPORT_WRONG_CALL] > told) == (!later && number != 7), "%u at %s: reported or not", number, name);
        check(number != 2 || terminal.wants_noise, "2 at %s: no noise is gathered", name);
        if (gives_up)
            check(terminal.state == TERMINAL_DAMAGED && is_clear(&terminal.keeper, sizeof terminal.keeper) &&
                    is_clear(&terminal.desk, sizeof terminal.desk),
                "%u at %s: not given up", number, name);
        else
            check(terminal.state == TERMINAL_RUNNING, "%u at %s: the keeper is given up", number, name);
        check(makes == made, "%u at %s: a keeper is made in the middle of a call", number, name);
        turn();
        check(makes == made + gives_up, "%u at %s: %u keepers were made", number, name, makes - made);
        keys = 0;
        turn();
        check(keys > 0, "%u at %s: no keys afterwards", number, name);
    }
}

/* .. and while the terminal starts. What is refused there for good is done without. */
static void answered_at_start(uint32_t number) {
    static const enum call calls[3] = {MAKE, WRITE, SEED};
    for (unsigned i = 0; i < 3; i++) {
        const char *name = call_names[calls[i]];
        uint8_t key[TERMINAL_KEY_LENGTH];
        good_life("another answer");
        power_on();
        pretends = true;
        pretended_call = calls[i];
        pretended_number = number;
        bool started = terminal_start(&terminal);
        pretends = false;

        /* a making that is refused leaves no keeper; where the answer hides that, 17 tells it at the next call */
        bool hidden = calls[i] == MAKE && number == 7, gives_up = number == 14 || number == 17;
        check(started == (calls[i] != MAKE || hidden || gives_up), "%u at %s: started or not", number, name);
        unsigned made = makes;
        for (unsigned n = 0; n < 20; n++) turn();
        check(makes == made + (started && (hidden || gives_up)), "%u at %s: %u keepers were made", number, name, makes - made);
        check(started ? keys > 0 : keys == 0, "%u at %s: keys or none afterwards", number, name);
        check(started || terminal_bytes(&terminal, key, sizeof key) == TERMINAL_OUT, "%u at %s: not out", number, name);
    }
}

static void every_answer(void) {
    static const uint32_t answers[] = {1, 2, 3, 4, 5, 6, 7, 8, 13, 14, 16, 17, 18, 99, UINT32_MAX};
    begin("every refusal has its own consequence");
    for (unsigned n = 0; n < sizeof answers / sizeof *answers; n++) {
        answered_while_running(answers[n]);
        answered_at_start(answers[n]);
    }
    end();
}

static void hits_at_any_moment(void) {
    begin("the record is hit, one field at a time, at all sorts of moments");
    unsigned before = hits, made = makes;
    for (unsigned round = 0; round < 4; round++)
        for (unsigned way = 0; way < DAMAGES; way++) {
            here = devices + way % DEVICES;
            all_well();
            plan.hit_at = 1 + below(round < 2 ? 40 : 300);
            plan.hit_way = way;
            plan.hit_again = round % 2 ? 1 + below(60) : 0;
            check(life(30, way % 5 ? SHUT_DOWN : UNPLUGGED), "damage %u: no start", way);
            if (!plan.hit_again) check(keys > 0, "damage %u: no keys afterwards", way);
        }
    check(hits - before > 3000, "only %u hits", hits - before);
    check(makes - made > 4000, "only %u keepers were made", makes - made);
    end();
}

/* Most of these hits leave the record in range, where the keeper cannot see them. */
static void hits_between_turns(void) {
    struct nk_keeper *k = &terminal.keeper;
    struct nk_desk *d = &terminal.desk;
    uint32_t new_device;
    begin("the record is hit between two turns, in any of its bits, or the desk is");
    for (unsigned i = 0; i < 720; i++) {
        here = devices + i % DEVICES;
        if (i % 3 == 0) memset(here->cells[CELL_SEED], 0, CELL_LENGTH); /* so that it is hit before it is seeded */
        all_well();
        power_on();
        check(terminal_start(&terminal), "no start");
        for (unsigned n = below(12); n > 0; n--) turn();
        unsigned made = makes;
        uint8_t *byte = i % 5 ? (uint8_t *)k + below(sizeof *k) : (uint8_t *)d + below(sizeof *d);
        switch (i % 12) {
        case 0: k->ledger.seeding.mark ^= 1; break; /* a mark that turns into a yes */
        case 3: k->ledger.input.count ^= 0x4000; break; /* credit that comes from nowhere */
        case 6: k->ledger.blocking.count ^= 0x1000; break;
        case 9: /* a new device that is none any more */
            new_device = i / 12 % 2 ? TERMINAL_RADIO : TERMINAL_FIRST_SENSOR + below(TERMINAL_SENSORS);
            k->came[new_device] ^= 3;
            break;
        case 10: d->count ^= i % 24 < 12 ? 1 : 0x80; break; /* a number that is forgotten or made up, or a count that is out of range */
        default: *byte ^= (uint8_t)(1u << below(8));
        }
        may_make = true;
        keys = numbers = 0;
        if (i % 2) look_at_number(NK_LIVE);
        ask_for_keys();
        look_at_number(NK_DRILL);
        check(keys == 0 && numbers == 0, "hit %u: keys or numbers of a record that was hit", i);
        turn();
        check(makes == made + 1, "hit %u: no new keeper", i);
        for (unsigned n = 0; n < 40; n++) turn();
        check(keys > 0, "hit %u: no keys afterwards", i);
    }
    end();
}

/* Nothing but the start bytes tells these keepers apart. */
static void hits_without_seeds(void) {
    begin("the record is hit when keys have come, again and again, and there is never a seed");
    for (unsigned round = 0; round < 40; round++) {
        here = devices + round % DEVICES;
        all_well();
        power_on();
        check(terminal_start(&terminal), "no start");
        for (unsigned i = 0; i < 10; i++) {
            memset(here->cells[CELL_SEED], 0, CELL_LENGTH);
            keys = 0;
            if (i > 0) turn(); /* which makes the keeper */
            for (unsigned n = 0; n < 19; n++) turn();
            check(keys > 2, "round %u, keeper %u: %u keys", round, i, keys);
            memset(here->cells[CELL_SEED], 0, CELL_LENGTH);
            plan.hit_way = below(DAMAGES);
            hit();
        }
    }
    end();
}

static void hits_without_end(void) {
    uint8_t key[TERMINAL_KEY_LENGTH];
    begin("memory that is hit again and again");
    good_life("many hits");
    power_on();
    check(terminal_start(&terminal), "no start");
    unsigned made = makes, told = reports[REPORT_DAMAGED_TOO_OFTEN];
    for (unsigned i = 0; i < 60; i++) {
        turn();
        plan.hit_way = i;
        hit();
    }
    check(makes - made == 16, "%u keepers were made", makes - made);
    check(terminal_bytes(&terminal, key, sizeof key) == TERMINAL_OUT, "it goes on");
    check(reports[REPORT_DAMAGED_TOO_OFTEN] == told + 1, "it is not reported once");
    good_life("many hits, and power off");
    end();
}

static void one_cut(void) {
    begin("power is cut at every moment of a life, and a write in the middle leaves anything");
    unsigned before = cuts;
    for (unsigned seedless = 0; seedless < 2; seedless++)
        for (unsigned tear = 0; tear < TEARS; tear++)
            for (unsigned at = 1, last = cuts - 1; last != cuts; at++) { /* until the life is over before the cut */
                here = devices + at % DEVICES;
                good_life("a power cut");
                if (seedless) memset(here->cells[CELL_SEED], 0xff, CELL_LENGTH);
                all_well();
                plan.cut_at = at;
                plan.tear = (enum tear)tear;
                last = cuts;
                life(seedless ? 26 : 4, SHUT_DOWN);
            }
    check(cuts - before > 1000, "only %u cuts", cuts - before);
    good_life("the power cuts");
    end();
}

static void two_cuts(void) {
    begin("power is cut while a terminal starts, and again while it starts anew, and the start number is not lost");
    enum { MOMENTS = 24 };
    unsigned before = cuts;
    for (unsigned first = 1; first <= MOMENTS; first++)
        for (unsigned second = 1; second <= MOMENTS; second++)
            for (unsigned way = 0; way < 3; way++) {
                static const enum tear tears[3] = {TEAR_HALF, TEAR_GARBAGE, TEAR_LAST_HALF};
                here = devices + way;
                for (unsigned i = 0; i < 2; i++) {
                    all_well();
                    plan.cut_at = i ? second : first;
                    plan.tear = tears[(way + i) % 3];
                    if (second % 7 == 0) plan.hit_at = 1 + below(MOMENTS), plan.hit_way = below(DAMAGES);
                    life(1, UNPLUGGED);
                }
                all_well();
                check(life(2, SHUT_DOWN), "no start after power was cut at moments %u and %u", first, second);
            }
    check(cuts - before > 2000, "only %u cuts", cuts - before);
    for (unsigned d = 0; d < DEVICES; d++) {
        here = devices + d;
        good_life("the power cuts");
    }
    end();
}

static void one_start_damaged(void) {
    begin("one copy of the start number is damaged, in any bit");
    here = devices;
    for (unsigned cell = CELL_START_1; cell <= CELL_START_2; cell++)
        for (unsigned bit = 0; bit < 8 * START_CELL; bit++) {
            here->cells[cell][bit / 8] ^= (uint8_t)(1u << bit % 8);
            all_well();
            check(life(2, UNPLUGGED) && keys > 0, "cell %u, bit %u: no start", cell, bit);
        }
    end();
}

/* One way to lose both copies. */
static void lose_starts(unsigned way) {
    uint8_t *first = here->cells[CELL_START_1], *second = here->cells[CELL_START_2];
    switch (way) {
    case 0: memset(first, 0, CELL_LENGTH), memset(second, 0, CELL_LENGTH); break;
    case 1: memset(first, 0xff, CELL_LENGTH), memset(second, 0xff, CELL_LENGTH); break;
    case 2: memset(here->cells, 0, sizeof here->cells); break;
    case 3: memset(here->cells, 0xff, sizeof here->cells); break;
    case 4: memcpy(here->cells, devices[1].cells, sizeof here->cells); break;
    case 5: memcpy(first, second, CELL_LENGTH), memset(second, 0, CELL_LENGTH); break;
    case 6: memcpy(second, first, CELL_LENGTH), memset(first, 0, CELL_LENGTH); break;
    case 7: memset(first, 0, START_CELL - 4), memset(second, 0, START_CELL - 4); break; /* the check values stay */
    case 8: memset(first + 4, 0, 8), memset(second + 4, 0, 8); break; /* the marks too */
    default:
        first[below(START_CELL)] ^= (uint8_t)(1 + below(255));
        second[below(START_CELL)] ^= (uint8_t)(1 + below(255));
    }
}

static void both_starts_lost(void) {
    begin("both copies are damaged, erased, another cell's, or another device's: no start, and none made up");
    for (unsigned way = 0; way < 300; way++) {
        good_life("cells that were lost");
        struct device kept = *here;
        unsigned made = makes;
        lose_starts(way);
        all_well();
        check(!life(3, SHUT_DOWN) && keys == 0 && makes == made, "way %u: a start from a number that was lost", way);
        if (way % 8 == 0) {
            commission_again();
            unsigned credited = credits;
            check(life(30, UNPLUGGED) && keys > 0, "way %u: no start after it was commissioned", way);
            check(credits == credited, "way %u: a seed outlives the commissioning", way);
            check(!store_commission(service_series), "way %u: a series is given twice", way);
        } else {
            *here = kept;
        }
    }
    end();
}

static void no_seed(void) {
    begin("a seed that is damaged, in any bit, or erased, or another device's, is no seed");
    for (unsigned bit = 0; bit < CELL_LENGTH * 8 + 3; bit++) {
        good_life("a seed that was lost");
        unsigned credited = credits;
        uint8_t *seed = here->cells[CELL_SEED];
        if (bit < CELL_LENGTH * 8) seed[bit / 8] ^= (uint8_t)(1u << bit % 8);
        else if (bit == CELL_LENGTH * 8) memset(seed, 0, CELL_LENGTH);
        else if (bit == CELL_LENGTH * 8 + 1) memset(seed, 0xff, CELL_LENGTH);
        else memcpy(seed, devices[1].cells[CELL_SEED], CELL_LENGTH);
        all_well();
        check(life(1, UNPLUGGED), "bit %u: no start", bit);
        check(credits == credited && keys == 0, "bit %u: a seed that is not there is credited", bit);
    }
    /* two devices on which the check value of an erased seed happens to be right */
    for (unsigned erased = 0; erased < 2; erased++) {
        static const uint8_t unlucky[2][4] = {{0x57, 0xa3, 0xf3, 0x5f}, {0x7a, 0x20, 0x13, 0x05}};
        static struct device device;
        uint8_t nothing = erased ? 0xff : 0;
        here = &device;
        memcpy(here->id, "terminal no.", 12);
        memcpy(here->id + 12, unlucky[erased], 4);
        memset(here->cells, nothing, sizeof here->cells);
        all_well();
        check(store_commission(0), "it cannot be commissioned");
        memset(here->cells[CELL_SEED], nothing, CELL_LENGTH);
        check(check_value(CELL_SEED, here->cells[CELL_SEED], CELL_LENGTH - 4) == (erased ? UINT32_MAX : 0), "an idle test");
        unsigned credited = credits;
        check(life(1, UNPLUGGED), "no start");
        check(credits == credited && keys == 0, "a seed that was erased to %u is credited", nothing);
    }
    here = devices;
    end();
}

static void start_numbers(void) {
    begin("start numbers go up by one, to the end of a series, and lie in the cells as they always did");
    uint8_t laid[CELL_LENGTH];
    uint64_t start = 0, first;
    commission_again();
    first = (uint64_t)service_series << 32;
    for (unsigned i = 1; i < 4; i++) check(store_next_start(&start) && start == first + i, "start %u", i);
    for (unsigned cell = CELL_START_1; cell <= CELL_START_2; cell++) {
        lay_start(laid, (enum board_cell)cell, first + 3);
        check(memcmp(laid, here->cells[cell], START_CELL) == 0, "cell %u is laid out in another way", cell);
        lay_start(here->cells[cell], (enum board_cell)cell, first + UINT32_MAX - 1);
    }
    check(store_next_start(&start) && start == first + UINT32_MAX, "the last number of a series is not used");
    check(!store_next_start(&start), "a series goes on into the next one");
    check(!life(3, SHUT_DOWN) && keys == 0, "a start past the end of a series");

    /* the larger of two numbers counts, whichever cell it is in */
    for (unsigned cell = CELL_START_1; cell <= CELL_START_2; cell++) {
        commission_again();
        first = (uint64_t)service_series << 32;
        lay_start(here->cells[cell], (enum board_cell)cell, first + 70);
        check(store_next_start(&start) && start == first + 71, "the smaller of two numbers counts");
    }
    good_life("a series");
    end();
}

static void bad_writes(void) {
    begin("cells that do not take a write, or say that they did");
    for (unsigned for_good = 0; for_good < 2; for_good++)
        for (unsigned fault = 0; fault < FAULTS; fault++)
            for (unsigned at = 1; at <= 6; at++) {
                here = devices + at % DEVICES;
                good_life("a bad write");
                unsigned made = makes, credited = credits;
                all_well();
                plan.bad_write = at;
                plan.bad_for_good = for_good;
                plan.fault = (enum fault)fault;
                bool started = life(4, SHUT_DOWN);
                /* the first two writes store the start number, the third erases the seed */
                if (at <= 2) check(!started && makes == made, "fault %u in write %u: a start that is not stored", fault, at);
                else check(started, "fault %u in write %u: no start", fault, at);
                if (at == 3) check(credits == credited, "fault %u in write %u: a seed that is not erased is credited", fault, at);
                if (at > 3) check(credits == credited + 1, "fault %u in write %u: the seed is not credited", fault, at);
                all_well();
                life(4, SHUT_DOWN);
            }
    end();
}

static void bad_reads(void) {
    begin("cells that cannot be read, or are read wrongly once");
    here = devices;
    for (unsigned bit = 0; bit < 2; bit++)
        for (unsigned at = 1; at <= 12; at++) {
            good_life("a bad read");
            all_well();
            plan.bad_read = at;
            plan.bad_bit = bit;
            life(4, SHUT_DOWN);
            all_well();
            life(4, UNPLUGGED);
        }
    good_life("bad reads");
    end();
}

static void ring_by_itself(void) {
    begin("a ring gives back what was put, in order, and counts what found no room");
    static struct ring ring;
    struct ring_entry e = {0, 0, 0, 0};
    uint32_t lost = 0;
    atomic_store(&ring.put, 0xfffffff0u); /* so that the counts wrap soon */
    atomic_store(&ring.taken, 0xfffffff0u);
    check(!ring_take(&ring, &e), "an entry of an empty ring");
    for (uint32_t i = 0; i < 400; i++) {
        uint32_t puts = below(2 * RING_LENGTH), first = i * 1000, next = first;
        for (uint32_t j = 0; j < puts; j++) {
            struct ring_entry in = {1, first + j, first + j, ~(uint64_t)(first + j)};
            ring_put(&ring, in);
        }
        if (puts > RING_LENGTH) lost += puts - RING_LENGTH;
        check(atomic_load(&ring.dropped) == lost, "%u are counted as dropped, and %u were", atomic_load(&ring.dropped), lost);
        for (; next - first <= RING_LENGTH && ring_take(&ring, &e); next++)
            check(e.number == next && e.stamp == next && e.address == ~(uint64_t)next, "entry %u is %u", next, e.number);
        check(next - first == (puts < RING_LENGTH ? puts : RING_LENGTH), "%u of %u entries came", next - first, puts);
    }
    end();
}

static void interrupts_in_calls(void) {
    begin("interrupts break into the keeper's calls: each comes once and in order, and a flood is dropped and counted");
    here = devices;
    interrupts_break_in = true;
    for (unsigned i = 0; i < 20; i++) {
        good_life("interrupts in the middle of calls");
        power_on();
        check(terminal_start(&terminal), "no start");
        for (unsigned n = 0; n < 20; n++) turn();
        interrupts_break_in = false;
        terminal_turn(&terminal);
        interrupts_break_in = true;
        check(interrupts_come == interrupts_sent, "%u interrupts came of %u", interrupts_come, interrupts_sent);
        check(atomic_load(&terminal.interrupts.dropped) == 0, "some were dropped");
    }
    interrupts_break_in = false;
    for (uint32_t i = 0; i < 100; i++) terminal_interrupt(&terminal, interrupts_sent++, 1);
    terminal_turn(&terminal);
    check(atomic_load(&terminal.interrupts.dropped) == 100 - RING_LENGTH, "a flood is not dropped, or not counted");
    end();
}

/* What a function of the terminal leaves on the stack. */

static uint8_t room[TERMINAL_KEY_LENGTH], taken_seed[STORE_SEED_LENGTH];
static struct nk_keeper record_before;
static bool done;
enum { PATTERN = 0x5a };

static void start_it(void) { done = terminal_start(&terminal); }
static void turn_it(void) { terminal_turn(&terminal), done = true; }
static void event_it(void) { done = terminal_event(&terminal, TERMINAL_RADIO, 1) == TERMINAL_DONE; }
static void bytes_of_it(void) { done = terminal_bytes(&terminal, room, sizeof room) == TERMINAL_DONE; }
static void lasting_key_of_it(void) { done = terminal_lasting_key(&terminal, room) == TERMINAL_DONE; }
static void number_of_it(void) { done = terminal_live_number(&terminal, room) == TERMINAL_DONE; }
static void stop_it(void) { terminal_stop(&terminal), done = true; }
static void take_seed(void) { done = store_take_seed(taken_seed); }
static void read_keeper(void) { done = __real_nk_read(&terminal.keeper, ticks, room, sizeof room).number == NK_DONE; }

/* Bytes that are all alike tell nothing: memory was filled with them, with zeros or when power came on, and they may be anywhere, in a
   register that a call saves too. */
static bool is_filling(const uint8_t *bytes, size_t len) {
    return memcmp(bytes, bytes + 1, len - 1) == 0;
}

/* Whether eight bytes in a row of a secret are on the stack, of which no call here uses more than its top. */
static bool stays(const void *secret, size_t len) {
    enum { ROW = 8, TOP = 6144 };
    const uint8_t *from = secret, *end = own_stack + sizeof own_stack;
    check(end[-TOP] == PATTERN && end[-TOP - 1] == PATTERN, "more of the stack is used than is looked at");
    for (size_t i = 0; i + ROW <= len; i += 4)
        for (const uint8_t *at = end - TOP; at + ROW <= end && !is_filling(from + i, ROW); at++)
            if (memcmp(from + i, at, ROW) == 0) return true;
    return false;
}

static bool stored_seed_stays(void) {
    return stays(here->cells[CELL_SEED] + 4, STORE_SEED_LENGTH);
}

/* What the generator's key was changed by in the last call. */
static uint32_t onto_key[8];

/* Calls a function on a stack of its own. */
static void call_apart(const char *what, void (*call)(void)) {
    record_before = terminal.keeper;
    on_own_stack(call, PATTERN);
    for (int i = 0; i < 8; i++) onto_key[i] = record_before.generator[4 + i] ^ terminal.keeper.generator[4 + i];
    check(done, "%s: not done", what);
}

/* .. and looks for secrets there. */
static void leaves_nothing(const char *what, void (*call)(void)) {
    call_apart(what, call);
    check(!stays(room, sizeof room), "%s: the key stays on the stack", what);
    check(!stays(record_before.generator + 4, 32), "%s: the generator's last key stays on the stack", what);
    check(!stays(terminal.keeper.generator + 4, 32), "%s: the generator's key stays on the stack", what);
    check(!stays(onto_key, sizeof onto_key), "%s: what the key was changed by stays on the stack", what);
    check(!stays(terminal.keeper.input, sizeof terminal.keeper.input), "%s: the input pool stays on the stack", what);
    check(!stored_seed_stays(), "%s: the stored seed stays on the stack", what);
}

static void nothing_behind(void) {
    begin("no key, no seed and nothing of the keeper stays on the stack");
    for (unsigned i = 0; i < 4; i++) {
        uint8_t seed[STORE_SEED_LENGTH];
        good_life("what stays on the stack");
        power_on();
        memcpy(seed, here->cells[CELL_SEED] + 4, sizeof seed);
        leaves_nothing("a start", start_it);
        check(is_clear(here->cells[CELL_SEED], CELL_LENGTH) && !stays(seed, sizeof seed), "a start: the seed stays on the stack");
        leaves_nothing("a turn that leaves a seed", turn_it);
        leaves_nothing("a session key", bytes_of_it);
        for (unsigned n = 0; n < 30; n++) turn();
        leaves_nothing("a lasting key", lasting_key_of_it);
        /* a number goes out with its message, and may stay; what the key was changed by may not */
        memset(room, 0, sizeof room);
        call_apart("a message number", number_of_it);
        check(!stays(onto_key, sizeof onto_key), "a message number: what the key was changed by stays on the stack");
        check(!stays(terminal.keeper.generator + 4, 32), "a message number: the generator's key stays on the stack");
        check(!stays(record_before.generator + 4, 32), "a message number: the generator's last key stays on the stack");
        leaves_nothing("a shutdown", stop_it);

        on_own_stack(take_seed, PATTERN);
        check(done && !stays(taken_seed, sizeof taken_seed), "a seed that is taken stays on the stack");
        memcpy(here->cells[CELL_SEED] + 4, taken_seed, sizeof taken_seed);
        on_own_stack(take_seed, PATTERN);
        check(!done && is_clear(taken_seed, sizeof taken_seed) && !stored_seed_stays(), "a seed that is no seed stays");

        /* a start without a seed, up to the event that seeds */
        power_on();
        check(terminal_start(&terminal), "no start");
        for (unsigned n = 0; n < 100 && terminal.keeper.ledger.seeding.mark != 1; n++) {
            step();
            leaves_nothing("an event", event_it);
        }
        check(terminal.keeper.ledger.seeding.mark == 1, "no event seeds");

        /* the keeper by itself does leave its bytes there, and those that changed its key, as nk.h says: without this the group would
         * show nothing */
        call_apart("a read of the keeper", read_keeper);
        for (int row = 0; row < 4; row++) check(stays(room + 8 * row, 8), "bytes that were read do not stay on the stack: an idle test");
        check(stays(onto_key, 8), "bytes that changed the key do not stay on the stack: an idle test");
    }
    end();
}

int main(void) {
    chance_at = 48;
    quiet_lives();
    everyday_refusals();
    sensors();
    message_numbers();
    record_goes_back();
    every_answer();
    hits_at_any_moment();
    hits_between_turns();
    hits_without_seeds();
    hits_without_end();
    one_cut();
    two_cuts();
    one_start_damaged();
    both_starts_lost();
    no_seed();
    start_numbers();
    bad_writes();
    bad_reads();
    ring_by_itself();
    interrupts_in_calls();
    nothing_behind();
    printf("%u keepers made, %u seeds credited, %u hits, %u power cuts\n", makes, credits, hits, cuts);
    return counted();
}
