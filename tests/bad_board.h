/* A board that fails in every way it can. Memory is hit, power is cut in the middle of anything, cells of the non-volatile memory do not
 * take a write, or say that they did.
 *
 * It is also as poor as can be: each time a keeper is made, clock, stamps and noise begin anew and are the same as ever, on all devices. */
#ifndef BAD_BOARD_H
#define BAD_BOARD_H

#include <setjmp.h>
#include <string.h>

#include "../examples/terminal/board.h"
#include "../examples/terminal/terminal.h"
#include "chance.h"
#include "damage.h"

/* The devices, the one that has power, and what runs on it. */
struct device {
    uint8_t id[BOARD_ID_LENGTH];
    uint8_t cells[CELLS][CELL_LENGTH];
};
enum { DEVICES = 4 };
static struct device devices[DEVICES], *here = devices;
static struct terminal terminal;
static jmp_buf power;

/* Time: the same after every making of a keeper. */
static uint32_t ticks, script;

/* What goes wrong, and when. A moment is a call of the board; moments, writes and reads are counted from power-on, 0 being never. */
enum tear { TEAR_NONE, TEAR_HALF, TEAR_LAST_HALF, TEAR_ALL, TEAR_GARBAGE, TEARS };
enum fault { FAULT_REFUSES, FAULT_LIES, FAULT_TAKES_AND_REFUSES, FAULT_BIT, FAULT_HALF, FAULTS };
static struct {
    unsigned cut_at;    /* a moment: power is cut */
    enum tear tear;     /* what a write leaves that power is cut in */
    unsigned hit_at;    /* a moment: the record is hit */
    unsigned hit_again; /* so many moments after that it is hit again, if not 0 */
    unsigned hit_way;   /* see damage.h */
    unsigned bad_write; /* a write that goes wrong */
    bool bad_for_good;  /* and all writes that follow */
    enum fault fault;   /* and how */
    unsigned bad_read;  /* a read that goes wrong: it fails, or has a wrong bit */
    bool bad_bit;
} plan;
static unsigned moments, writes, reads, hits, cuts;

/* What a person heard; and whether there is a reason for a new keeper: power came on, or the record was hit. */
static unsigned reports[REPORT_SEED_NOT_STORED + 1];
static bool may_make;

static inline void hit(void) {
    damage(&terminal.keeper, plan.hit_way);
    hits++;
    may_make = true;
}

/* True where power is to be cut now. */
static bool moment(void) {
    if (++moments == plan.hit_at) {
        hit();
        if (plan.hit_again) plan.hit_at += plan.hit_again, plan.hit_way = (plan.hit_way + 1) % DAMAGES;
    }
    return moments == plan.cut_at;
}

static void cut(void) {
    cuts++;
    longjmp(power, 1);
}

uint32_t board_ticks(void) {
    if (moment()) cut();
    return ticks;
}

uint64_t board_stamp(void) {
    if (moment()) cut();
    return 0x9e3779b97f4a7c15u * (script + 1);
}

uint32_t board_noise(void) {
    if (moment()) cut();
    return script * 7 & 0xff;
}

void board_id(uint8_t id[BOARD_ID_LENGTH]) {
    if (moment()) cut();
    memcpy(id, here->id, BOARD_ID_LENGTH);
}

void board_report(enum report what, uint32_t number) {
    (void)number;
    if (moment()) cut();
    reports[what]++;
}

bool board_read_cell(enum board_cell cell, uint8_t *bytes, size_t len) {
    if (moment()) cut();
    bool bad = ++reads == plan.bad_read;
    memcpy(bytes, here->cells[cell], len);
    if (bad && plan.bad_bit) bytes[len / 2] ^= 0x10;
    return !bad || plan.bad_bit;
}

bool board_write_cell(enum board_cell cell, const uint8_t *bytes, size_t len) {
    uint8_t *to = here->cells[cell];
    size_t half = len / 2;
    if (moment()) {
        switch (plan.tear) {
        case TEAR_HALF: memcpy(to, bytes, half); break;
        case TEAR_LAST_HALF: memcpy(to + half, bytes + half, len - half); break;
        case TEAR_ALL: memcpy(to, bytes, len); break;
        case TEAR_GARBAGE: for (size_t i = 0; i < len; i++) to[i] = (uint8_t)chance(); break;
        default: break;
        }
        cut();
    }
    writes++;
    if (plan.bad_write == 0 || (plan.bad_for_good ? writes < plan.bad_write : writes != plan.bad_write)) {
        memcpy(to, bytes, len);
        return true;
    }
    switch (plan.fault) {
    case FAULT_REFUSES: return false;
    case FAULT_LIES: return true;
    case FAULT_TAKES_AND_REFUSES: memcpy(to, bytes, len); return false;
    case FAULT_BIT: memcpy(to, bytes, len); to[half] ^= 4; return true;
    default: memcpy(to, bytes, half); return true;
    }
}

#endif
