/* A terminal's side of the noise keeper: one keeper and its issuing desk, kept alive through damaged memory and power cuts, and never started
 * twice in the same way. The main loop calls terminal_turn again and again, and whatever else it wants in between. */
#ifndef TERMINAL_H
#define TERMINAL_H

#include <stdbool.h>
#include <stddef.h>
#include <stdint.h>

#include "../../include/nk.h"
#include "ring.h"

enum { TERMINAL_KEY_LENGTH = 32, TERMINAL_NUMBER_LENGTH = NK_NUMBER_LENGTH };

/* Devices, as nk_event counts them. The keeper leaves out repeated values on device 0 only, so that is the one with keys to hold down.
 * A rig's sensors have the devices from 100 up to the last one that there is; between them and the terminal's own there is room. */
enum {
    TERMINAL_KEYBOARD = 0,
    TERMINAL_RADIO = 1,
    TERMINAL_NOISE = 2,
    TERMINAL_FIRST_SENSOR = 100,
    TERMINAL_SENSORS = NK_DEVICES - TERMINAL_FIRST_SENSOR
};

enum terminal_answer {
    TERMINAL_DONE,
    TERMINAL_LATER, /* not now: let the main loop turn, and ask again */
    TERMINAL_WRONG, /* the call is wrong, and would be at any time */
    TERMINAL_OUT    /* there is no keeper, and there will be none until a person has seen to it */
};

enum terminal_state {
    TERMINAL_STOPPED, /* zeroed memory is a terminal that is stopped */
    TERMINAL_RUNNING,
    TERMINAL_DAMAGED /* record or desk was found damaged, and both wiped; the next turn makes a new keeper */
};

/* The record has 22 KB, so a terminal is no variable for a controller's stack: main.c has a static one. */
struct terminal {
    struct nk_keeper keeper;
    struct nk_desk desk; /* the last message numbers of this keeper; it begins with the keeper, and goes with it */
    uint64_t seal; /* over the keeper and the desk, as the last call left them */
    enum terminal_state state;
    unsigned restarts; /* since power came on */
    bool wants_noise;
    bool seed_kept;        /* this keeper has left a seed for the next start */
    uint32_t seed_kept_at; /* and when it did so last */
    uint8_t lasting[TERMINAL_KEY_LENGTH]; /* as much of a lasting key as was delivered so far */
    size_t lasting_length;
    struct ring interrupts;
};

/* For answers that say whether there is a key. Who does not look would use a key that is not there. */
#if defined __GNUC__
#define TERMINAL_LOOK __attribute__((warn_unused_result))
#else
#define TERMINAL_LOOK
#endif

/* Power came on: to be called once, before interrupts are let in. False: there is no keeper (TERMINAL_OUT). */
TERMINAL_LOOK bool terminal_start(struct terminal *t);

/* One turn of the main loop. */
void terminal_turn(struct terminal *t);

/* Power will go: a fresh seed is left, and the record wiped. To be called with interrupts shut out. */
void terminal_stop(struct terminal *t);

/* Something happened on a device. */
enum terminal_answer terminal_event(struct terminal *t, uint32_t device, uint32_t value);

/* A sensor of the rig told a value. Sensors are counted from 0; there are TERMINAL_SENSORS at most. */
enum terminal_answer terminal_sensor(struct terminal *t, uint32_t sensor, uint32_t value);

/* For interrupt handlers, and the only function for them. A handler's stack must not be the one that it broke into, and it must be
 * compiled without vector registers (-mgeneral-regs-only), this core with it: nk.h says why, under MACHINE. */
void terminal_interrupt(struct terminal *t, uint32_t number, uint64_t address);

/* Generator bytes, as many as the room has: session keys. All of them or none: where the answer is not TERMINAL_DONE, the room is
 * cleared. Who has used a key calls forget. */
TERMINAL_LOOK enum terminal_answer terminal_bytes(struct terminal *t, uint8_t *room, size_t len);

/* A key of the blocking pool, for what has to last for years. It comes in parts, as credit comes in, and is handed out when it is whole. */
TERMINAL_LOOK enum terminal_answer terminal_lasting_key(struct terminal *t, uint8_t key[TERMINAL_KEY_LENGTH]);

/* A number for a message of an exercise, and one for a message that is meant. Two functions and no class to hand over: who wants a drill
 * number cannot be given a live one by a byte that is wrong. A number is 16 bytes, or the room is cleared. */
TERMINAL_LOOK enum terminal_answer terminal_drill_number(struct terminal *t, uint8_t number[TERMINAL_NUMBER_LENGTH]);
TERMINAL_LOOK enum terminal_answer terminal_live_number(struct terminal *t, uint8_t number[TERMINAL_NUMBER_LENGTH]);

#endif
