/* The keeper in plain C: the calls of nk.h under other names, over the same record. What the proved keeper is measured against and
   compared with. */
#ifndef PLAIN_KEEPER_H
#define PLAIN_KEEPER_H

#include "../include/nk.h"

struct nk_answer plain_make(struct nk_keeper *k, const uint8_t *start, size_t start_len);
struct nk_answer plain_event(struct nk_keeper *k, uint32_t device, uint32_t now, uint64_t stamp, uint32_t value);
struct nk_answer plain_interrupt(struct nk_keeper *k, uint32_t now, uint32_t number, uint64_t stamp, uint64_t address);
struct nk_answer plain_write(struct nk_keeper *k, const uint8_t *bytes, size_t len);
struct nk_answer plain_seed(struct nk_keeper *k, uint32_t now, const uint8_t *bytes, size_t len, uint32_t credit);
struct nk_answer plain_read(struct nk_keeper *k, uint32_t now, uint8_t *out, size_t len);
struct nk_answer plain_blocking_read(struct nk_keeper *k, uint8_t *out, size_t len);

/* plain_read of a record that is known to be in range: all but its range test, for a call that has made the test already. */
struct nk_answer plain_read_in_range(struct nk_keeper *k, uint32_t now, uint8_t *out, size_t len);

#endif
