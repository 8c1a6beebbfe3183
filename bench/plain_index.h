/* The index of a journal in plain C, straight from the paper: what a good programmer writes without proofs. */
#ifndef PLAIN_INDEX_H
#define PLAIN_INDEX_H

#include "nk_index.h"

struct nk_fresh plain_fresh_index(const uint8_t *room, size_t len);
struct nk_appended plain_append(uint8_t *room, size_t len, const struct nk_index *index, const uint8_t *more, size_t more_len);
uint32_t plain_look(const uint8_t *room, size_t len, const struct nk_index *index, const uint32_t *numbers, size_t count, uint32_t *answers, uint32_t *places);

/* The place of a record by counting from the front, as the lab does it; 0 where there is none. */
size_t plain_count(const uint8_t *j, size_t len, uint32_t number);

#endif
