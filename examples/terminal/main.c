/* A made-up board, so that the terminal runs anywhere and always does the same; and a few days of its life, power cuts and damaged
 * memory among them. Only this file knows of a C library.
 *
 *     cc examples/terminal/[a-z]*.c crates/lent/out/liblent.a     (README says what writes the archive; tests/run builds it too)
 *
 * Read terminal.c first, then store.c; what a board has to bring is in board.h. */
#include <stdio.h>
#include <stdlib.h>
#include <string.h>

#include "board.h"
#include "forget.h"
#include "store.h"
#include "terminal.h"

/* The board: a clock, a cycle counter and noise from one linear generator; memory that outlives a power cut. */

static uint32_t ticks;
static uint64_t cycles = 1;
static uint8_t cells[CELLS][CELL_LENGTH];

static void time_passes(void) {
    cycles = cycles * 6364136223846793005u + 1442695040888963407u;
    ticks += 1 + (uint32_t)(cycles >> 55);
}

uint32_t board_ticks(void) { return ticks; }
uint64_t board_stamp(void) { return cycles; }
uint32_t board_noise(void) { return (uint32_t)(cycles >> 33) & 0xff; }
void board_id(uint8_t id[BOARD_ID_LENGTH]) { memcpy(id, "terminal no. 007", BOARD_ID_LENGTH); }

bool board_read_cell(enum board_cell cell, uint8_t *bytes, size_t len) {
    memcpy(bytes, cells[cell], len);
    return true;
}

bool board_write_cell(enum board_cell cell, const uint8_t *bytes, size_t len) {
    memcpy(cells[cell], bytes, len);
    return true;
}

void board_report(enum report what, uint32_t number) {
    static const char *const words[] = {
        [REPORT_NO_START] = "no start number that was never used: commission the terminal",
        [REPORT_DAMAGED] = "the keeper's record or its desk was damaged: a new keeper will be made",
        [REPORT_DAMAGED_TOO_OFTEN] = "damaged too often: no keeper until power was off",
        [REPORT_WRONG_CALL] = "the keeper refused a call that is wrong",
        [REPORT_SEED_NOT_STORED] = "the seed for the next start was not stored",
    };
    printf("%9u  REPORT %s (%u)\n", (unsigned)ticks, words[what], (unsigned)number);
}

/* The terminal's memory; a power cut clears it. */

static struct terminal terminal;

static void say(const char *what) {
    printf("%9u  %s\n", (unsigned)ticks, what);
}

/* Nothing of this may fail here; where it does, the example fails. */
static void need(bool holds, const char *what) {
    if (holds) return;
    printf("FAILED: %s\n", what);
    exit(1);
}

/* The terminal stands at a rig with so many sensors, one of which tells a value now and then. Most of them are new to the keeper, which
 * mixes what they tell and gives them no credit for it. */
enum { RIG_SENSORS = 600 };

/* Some turns of the main loop, with the noise of an ordinary day. The interrupt comes from the loop, because this board has none. */
static void live(unsigned turns) {
    for (unsigned i = 0; i < turns; i++) {
        time_passes();
        if (i % 3 == 0) terminal_event(&terminal, TERMINAL_KEYBOARD, 'a' + (uint32_t)(cycles >> 62));
        if (i % 3 == 1) terminal_event(&terminal, TERMINAL_RADIO, (uint32_t)(cycles >> 40) & 0xff);
        if (i % 3 == 2) terminal_interrupt(&terminal, 5, 0x08000000u + (cycles >> 48));
        terminal_sensor(&terminal, (uint32_t)(cycles >> 32) % RIG_SENSORS, (uint32_t)(cycles >> 44) & 0xfff);
        terminal_turn(&terminal);
    }
}

/* A session key, asked for until it is there; it must differ from the one before. Gives the turns that it took. */
static unsigned session_key(void) {
    static uint8_t last[TERMINAL_KEY_LENGTH];
    uint8_t key[TERMINAL_KEY_LENGTH];
    unsigned turns = 0;
    while (terminal_bytes(&terminal, key, sizeof key) == TERMINAL_LATER && turns < 10000) {
        live(1);
        turns++;
    }
    need(memcmp(key, last, sizeof key) != 0, "a session key came twice, or none came");
    memcpy(last, key, sizeof last); /* a real terminal keeps no key that it does not use */
    forget(key, sizeof key);
    printf("%9u  a session key, after %u turns\n", (unsigned)ticks, turns);
    return turns;
}

static unsigned lasting_key(void) {
    uint8_t key[TERMINAL_KEY_LENGTH];
    unsigned turns = 0;
    while (terminal_lasting_key(&terminal, key) == TERMINAL_LATER && turns < 10000) {
        live(1);
        turns++;
    }
    need(turns < 10000, "no lasting key came");
    forget(key, sizeof key);
    printf("%9u  a lasting key, after %u turns\n", (unsigned)ticks, turns);
    return turns;
}

/* A message number, asked for until it is there. It is no secret: it goes out with its message. */
static void message_number(const char *class, enum terminal_answer ask(struct terminal *, uint8_t[TERMINAL_NUMBER_LENGTH])) {
    static uint8_t last[TERMINAL_NUMBER_LENGTH];
    uint8_t number[TERMINAL_NUMBER_LENGTH];
    unsigned turns = 0;
    enum terminal_answer answer;
    while ((answer = ask(&terminal, number)) == TERMINAL_LATER && turns++ < 10000) live(1);
    need(answer == TERMINAL_DONE, "no message number came");
    need(memcmp(number, last, sizeof number) != 0, "a message number came twice");
    memcpy(last, number, sizeof last);
    printf("%9u  %s number ", (unsigned)ticks, class);
    for (int i = 0; i < TERMINAL_NUMBER_LENGTH; i++) printf("%02x", number[i]);
    puts("");
}

/* The messages of an exercise are drills but for the one that calls it off, which everybody has to believe. */
static void exercise(void) {
    for (int i = 0; i < 3; i++) message_number("drill", terminal_drill_number);
    message_number("live", terminal_live_number);
}

/* The clock begins anew, and the memory is lost. */
static void power_cut(void) {
    say("power cut");
    memset(&terminal, 0xa5, sizeof terminal);
    ticks = 0;
}

int main(void) {
    static uint8_t large[10000];

    say("a terminal that nobody commissioned");
    need(!terminal_start(&terminal), "it starts from no start number");
    need(terminal_bytes(&terminal, large, 32) == TERMINAL_OUT, "it hands out bytes");
    need(terminal_live_number(&terminal, large) == TERMINAL_OUT, "it hands out a message number");

    say("commissioned: the first start, with no seed");
    need(store_commission(0) && terminal_start(&terminal), "it does not start");
    need(session_key() > 0, "a key before there was noise");
    session_key();
    live(300);
    lasting_key();

    say("an exercise");
    exercise();

    say("shut down, and a second start with the seed that the first one left");
    terminal_stop(&terminal);
    power_cut();
    need(terminal_start(&terminal), "it does not start");
    need(session_key() == 0, "the stored seed does not seed");
    live(30);

    say("a power cut without warning, and a third start");
    power_cut();
    need(terminal_start(&terminal), "it does not start");
    need(session_key() == 0, "the stored seed does not seed");
    live(30);

    say("the record is damaged while it runs");
    terminal.keeper.ledger.spill.tally = 1000;
    need(session_key() == 1, "no key at the first turn after it");
    exercise();

    say("the desk is damaged: it goes, and the keeper with it");
    terminal.desk.count = 2;
    need(session_key() == 1 && terminal.desk.count == 0, "no key at the first turn after it, or the desk stays");
    exercise();

    say("ten thousand bytes go in parts; the last sensor is taken, and one that there is not is refused, with nothing restarted for it");
    need(terminal_bytes(&terminal, large, sizeof large) == TERMINAL_DONE, "no large room");
    forget(large, sizeof large);
    need(terminal_sensor(&terminal, TERMINAL_SENSORS - 1, 1) == TERMINAL_DONE, "the last sensor is refused");
    need(terminal_sensor(&terminal, TERMINAL_SENSORS, 1) == TERMINAL_WRONG, "a sensor that there is not is taken");
    session_key();

    say("both copies of the start number are lost: no start until it is commissioned again");
    terminal_stop(&terminal);
    power_cut();
    cells[CELL_START_1][5] ^= 1;
    cells[CELL_START_2][6] ^= 1;
    need(!terminal_start(&terminal), "it starts from a number that was lost");
    need(store_commission(1) && terminal_start(&terminal), "it does not start");
    session_key();
    terminal_stop(&terminal);
    return 0;
}
