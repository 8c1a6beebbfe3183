/* What the terminal asks of its board. Who brings the terminal to a controller writes these functions and nothing else: main.c has a
 * made-up board, tests/terminal.c one that fails in every way that it can. */
#ifndef BOARD_H
#define BOARD_H

#include <stdbool.h>
#include <stddef.h>
#include <stdint.h>

/* A free-running clock of 1,000 ticks a second, and the finest counter at hand. Interrupt handlers read both. */
uint32_t board_ticks(void);
uint64_t board_stamp(void);

/* A sample of something that nobody outside can follow: a converter's lowest bits, the receiver's noise. */
uint32_t board_noise(void);

/* The device's own bytes: the same at every start, and others on every other device. A serial number and the controller's unique id. */
enum { BOARD_ID_LENGTH = 16 };
void board_id(uint8_t id[BOARD_ID_LENGTH]);

/* Non-volatile memory, a few cells. True where all bytes were read, or are written for good: a read that follows reads the cell
 * itself and no cache. A write that is cut short may leave anything in its own cell and must leave the other cells alone, so the
 * cells must not share a page that is erased as a whole. Nobody may put an old image of them back: start numbers would come again. And
 * they must be as hard to read from outside as a key is, for the seed is as good as one. */
enum board_cell { CELL_START_1, CELL_START_2, CELL_SEED, CELLS };
enum { CELL_LENGTH = 72 };
bool board_read_cell(enum board_cell cell, uint8_t *bytes, size_t len);
bool board_write_cell(enum board_cell cell, const uint8_t *bytes, size_t len);

/* Something that a person should hear of. `number` is the keeper's answer where there was one, else 0. */
enum report {
    REPORT_NO_START,          /* no start number that was never used: service has to commission the terminal */
    REPORT_DAMAGED,           /* the keeper's record, or its desk, was damaged or an old one: a new keeper is made at the next turn */
    REPORT_DAMAGED_TOO_OFTEN, /* it was damaged again and again: this memory is not fit to hold keys */
    REPORT_WRONG_CALL,        /* an error in this program: the keeper refuses the call, and always will */
    REPORT_SEED_NOT_STORED    /* the next start will have to gather its noise anew */
};
void board_report(enum report what, uint32_t number);

#endif
