/* What this machine cannot go below, whatever the program: measured on it, in nanoseconds. */
#ifndef LIMITS_H
#define LIMITS_H

#include <stddef.h>

/* One instruction of a chain in which each waits for the one before. */
double limit_step(void);

/* A ChaCha20 block: a quarter round is a chain of twelve, four of them go side by side, and a block has twenty rounds. */
double limit_block(void);

/* A SHA-1 compression: each of its eighty steps waits for the one before with a rotation and a sum. */
double limit_compression(void);

/* A mixed byte: the word that it writes waits for the one written before it, whose low bits choose the twist entry that goes in. */
double limit_byte(void);

/* The range test: so many timers are loaded, two numbers and a byte each. */
double limit_timers(size_t count);

#endif
