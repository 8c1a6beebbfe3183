/* The converter in plain C: the call of nk_convert.h under another name, straight from the paper. */
#ifndef PLAIN_CONVERT_H
#define PLAIN_CONVERT_H

#include "nk_convert.h"

struct nk_converted plain_convert(const uint8_t *journal, size_t len, uint8_t *room, size_t room_len);

#endif
