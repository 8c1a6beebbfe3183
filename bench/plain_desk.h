/* The issuing desk in plain C: nk_issue under another name, over the same record and the same desk. What the proved call is measured against
   and compared with. */
#ifndef PLAIN_DESK_H
#define PLAIN_DESK_H

#include "../include/nk.h"

struct nk_issued plain_issue(struct nk_keeper *k, struct nk_desk *desk, uint32_t now, const uint8_t *field, size_t len);

#endif
