/* The issuing desk written straight from the customer's rules, above the plain keeper, for speed and for reading. */
#include "plain_desk.h"
#include "plain_keeper.h"
#include "plain_range.h"

enum { DRAWS = 4, CLASS_LENGTH = 1, DRAWN = NK_NUMBER_LENGTH - CLASS_LENGTH };

static struct nk_issued refusal(uint32_t number, uint32_t blocks, uint32_t compressions) {
    struct nk_issued none = {{number, 0, blocks, compressions, 0}, {0}};
    return none;
}

static int is_class(const uint8_t *field, size_t len) {
    return len == CLASS_LENGTH && (field[0] == NK_DRILL || field[0] == NK_LIVE);
}

/* Eight bytes, in whatever order the machine has them: they are only compared. The copy is the compiler's own, which is one load; by the
   library's name it would be a call, since the measurements are compiled without one. */
static inline uint64_t half(const uint8_t *from) {
    uint64_t x;
    __builtin_memcpy(&x, from, sizeof x);
    return x;
}

/* Goes over all that are remembered, also past an equal one: time does not tell where that stands. What two numbers differ in is 0 exactly if
   neither it nor its negative has the highest bit; so these are gathered by `and` and looked at once, at the end. Nothing of it compares,
   because SSE2 compares no numbers of 64 bits. */
static int is_remembered(const struct nk_desk *desk, const uint8_t number[NK_NUMBER_LENGTH]) {
    uint64_t first = half(number), second = half(number + 8), all_differ = UINT64_MAX;
    for (uint32_t i = 0; i < desk->count; i++) {
        uint64_t difference = (half(desk->numbers[i]) ^ first) | (half(desk->numbers[i] + 8) ^ second);
        all_differ &= difference | (0 - difference);
    }
    return all_differ >> 63 == 0;
}

static void remember(struct nk_desk *desk, const uint8_t number[NK_NUMBER_LENGTH]) {
    if (desk->count == NK_REMEMBERED)
        __builtin_memmove(desk->numbers[0], desk->numbers[1], (NK_REMEMBERED - 1) * NK_NUMBER_LENGTH);
    else
        desk->count++;
    __builtin_memcpy(desk->numbers[desk->count - 1], number, NK_NUMBER_LENGTH);
}

struct nk_issued plain_issue(struct nk_keeper *k, struct nk_desk *desk, uint32_t now, const uint8_t *field, size_t len) {
    if (desk->count > NK_REMEMBERED || !plain_in_range(k)) return refusal(NK_OUT_OF_RANGE, 0, 0);
    if (!is_class(field, len)) return refusal(NK_NO_SUCH_CLASS, 0, 0);
    struct nk_issued issued = {{NK_DONE, NK_NUMBER_LENGTH, 0, 0, 0}, {field[0]}};
    for (int draw = 0; draw < DRAWS; draw++) {
        struct nk_answer a = plain_read_in_range(k, now, issued.number + CLASS_LENGTH, DRAWN);
        if (a.number != NK_DONE) return refusal(a.number, 0, 0); /* a first draw: where that is done, so are the others */
        issued.answer.blocks += a.blocks;
        issued.answer.compressions += a.compressions;
        if (!is_remembered(desk, issued.number)) {
            remember(desk, issued.number);
            return issued;
        }
    }
    return refusal(NK_ALL_REPEATED, issued.answer.blocks, issued.answer.compressions);
}
