/* What the terminal keeps through a power cut: the number of its last start, and a seed for the next one. */
#ifndef STORE_H
#define STORE_H

#include <stdbool.h>
#include <stdint.h>

enum { STORE_SEED_LENGTH = 64 };

/* Gives a terminal its first start number: the upper half is `series`, the lower half counts the starts. The factory does it once;
 * service does it again where the number was lost, with a series that this device never had (the next one in its book). False where
 * the cells did not take it, or still hold a number of this series or a later one. */
bool store_commission(uint32_t series);

/* A start number that no earlier start of this device had, stored before it is handed out. False: there is none, and no keeper may be
 * made. */
bool store_next_start(uint64_t *start);

/* The seed that an earlier start left. True: it was whole, it is handed out for the first time, and it is erased, so that it will not
 * be handed out again. False: there is no seed, and nothing takes its place. */
bool store_take_seed(uint8_t seed[STORE_SEED_LENGTH]);

/* Leaves a seed for the next start, in the place of one that was left before. */
bool store_put_seed(const uint8_t seed[STORE_SEED_LENGTH]);

#endif
