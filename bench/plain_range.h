/* The range test (answer 17) in plain C: every call on a made keeper runs it first, and it reads the timers of all devices, 17 of the
   record's 22 KB. Here it stands three times over: as fast as it can be written, as it comes to mind, and the reading alone. */
#ifndef PLAIN_RANGE_H
#define PLAIN_RANGE_H

#include "../include/nk.h"

/* Whether a record is in range. The plain keeper's own test: no way out of its loops, so several devices are taken at a time. */
int plain_in_range(const struct nk_keeper *k);

/* The same, by comparing number after number and stopping at the first that is out of range. */
int plain_in_range_obvious(const struct nk_keeper *k);

/* Reads the bytes that the test of the timers reads, and does no more with them than it must for the compiler not to leave that out. */
uint64_t plain_read_timers(const struct nk_keeper *k);

#endif
