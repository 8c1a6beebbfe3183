/* A cell holds a mark, its content, and a check value over both; anything else in a cell is no content. An erased cell, all 0 or all
 * 0xff, has not the mark, so a number or a seed that is not there is never read as zeros. */
#include "store.h"

#include <string.h>

#include "board.h"
#include "forget.h"

enum { MARK_LENGTH = 4, CHECK_LENGTH = 4, START_LENGTH = 8 };
_Static_assert(MARK_LENGTH + STORE_SEED_LENGTH + CHECK_LENGTH == CELL_LENGTH, "a seed fills its cell");
_Static_assert(MARK_LENGTH + START_LENGTH + CHECK_LENGTH <= CELL_LENGTH, "a start number fits into its cell");

static const uint8_t mark[MARK_LENGTH] = {'N', 'K', 'c', 1};

/* CRC-32, a bit at a time: cells are few and seldom read. */
static uint32_t crc(uint32_t sum, const uint8_t *bytes, size_t len) {
    while (len-- > 0) {
        sum ^= *bytes++;
        for (int bit = 0; bit < 8; bit++) sum = sum >> 1 ^ (0xedb88320u & (0u - (sum & 1)));
    }
    return sum;
}

/* Numbers as bytes, the lowest first. */
static void put(uint8_t *to, uint64_t number, size_t len) {
    for (size_t i = 0; i < len; i++) to[i] = (uint8_t)(number >> 8 * i);
}

static uint64_t get(const uint8_t *from, size_t len) {
    uint64_t number = 0;
    for (size_t i = 0; i < len; i++) number |= (uint64_t)from[i] << 8 * i;
    return number;
}

/* The check value also goes over which cell it is, and whose. The image of one terminal's memory in another terminal is then no
 * content: its seed would be on both, and its start numbers may be ones that the other has used. */
static uint32_t check_of(enum board_cell cell, const uint8_t *bytes, size_t len) {
    uint8_t id[BOARD_ID_LENGTH], which = (uint8_t)cell;
    board_id(id);
    return ~crc(crc(crc(0xffffffffu, &which, 1), id, sizeof id), bytes, len);
}

/* What is in a cell; false where that is no content. */
static bool read_cell(enum board_cell cell, uint8_t *content, size_t len) {
    uint8_t bytes[CELL_LENGTH];
    size_t end = MARK_LENGTH + len;
    bool right = board_read_cell(cell, bytes, end + CHECK_LENGTH) && memcmp(bytes, mark, MARK_LENGTH) == 0 &&
                 get(bytes + end, CHECK_LENGTH) == check_of(cell, bytes, end);
    if (right) memcpy(content, bytes + MARK_LENGTH, len);
    forget(bytes, sizeof bytes);
    return right;
}

/* Writes bytes, and reads them back: true where the cell now has them. */
static bool write_bytes(enum board_cell cell, const uint8_t *bytes, size_t len) {
    uint8_t back[CELL_LENGTH];
    bool there = board_write_cell(cell, bytes, len) && board_read_cell(cell, back, len) && memcmp(back, bytes, len) == 0;
    forget(back, sizeof back);
    return there;
}

static bool write_cell(enum board_cell cell, const uint8_t *content, size_t len) {
    uint8_t bytes[CELL_LENGTH];
    memcpy(bytes, mark, MARK_LENGTH);
    memcpy(bytes + MARK_LENGTH, content, len);
    put(bytes + MARK_LENGTH + len, check_of(cell, bytes, MARK_LENGTH + len), CHECK_LENGTH);
    bool there = write_bytes(cell, bytes, MARK_LENGTH + len + CHECK_LENGTH);
    forget(bytes, sizeof bytes);
    return there;
}

static bool erase_seed(void) {
    static const uint8_t nothing[CELL_LENGTH];
    return write_bytes(CELL_SEED, nothing, sizeof nothing);
}

static bool read_start(enum board_cell cell, uint64_t *start) {
    uint8_t content[START_LENGTH];
    bool right = read_cell(cell, content, sizeof content);
    if (right) *start = get(content, sizeof content);
    return right;
}

static bool write_start(enum board_cell cell, uint64_t start) {
    uint8_t content[START_LENGTH];
    put(content, start, sizeof content);
    return write_cell(cell, content, sizeof content);
}

/* The start number is there twice, and a start is used only when both cells have it. So every cell that holds a number at all holds
 * the last one that was used, or a later one, whatever was cut short or damaged since: the larger one is the one to go on from, and
 * one of the two may be lost. Where both are lost nobody knows which numbers were used. Any guess, 0 above all, could repeat a start,
 * and with it its keys; so there is no start until service commissions the terminal.
 *
 * The last number, and the cell that may be written first: never the only one that has it. */
static bool last_start(uint64_t *last, enum board_cell *spare) {
    uint64_t first = 0, second = 0;
    bool has_first = read_start(CELL_START_1, &first), has_second = read_start(CELL_START_2, &second);
    *spare = has_first && (!has_second || first >= second) ? CELL_START_2 : CELL_START_1;
    *last = *spare == CELL_START_2 ? first : second;
    return has_first || has_second;
}

static bool write_both(uint64_t start, enum board_cell spare) {
    return write_start(spare, start) && write_start(spare == CELL_START_1 ? CELL_START_2 : CELL_START_1, start);
}

bool store_commission(uint32_t series) {
    uint64_t last;
    enum board_cell spare;
    if (last_start(&last, &spare) && last >> 32 >= series) return false;
    /* a seed that came with the memory may be on other terminals too */
    return erase_seed() && write_both((uint64_t)series << 32, spare);
}

/* A cell that cannot be written is not passed over: it would go on holding an old number, which would count again the day the other
 * cell is lost. */
bool store_next_start(uint64_t *start) {
    enum board_cell spare;
    if (!last_start(start, &spare) || (uint32_t)*start == UINT32_MAX) return false;
    ++*start;
    return write_both(*start, spare);
}

/* The seed is erased, and seen to be erased, before it is handed out. Power that is cut before that leaves a seed that was not used;
 * power that is cut after it leaves none, and the next start gathers noise, which is right. A seed that cannot be erased would be
 * credited again and again, so it is not handed out at all. */
bool store_take_seed(uint8_t seed[STORE_SEED_LENGTH]) {
    if (read_cell(CELL_SEED, seed, STORE_SEED_LENGTH) && erase_seed()) return true;
    forget(seed, STORE_SEED_LENGTH);
    return false;
}

bool store_put_seed(const uint8_t seed[STORE_SEED_LENGTH]) {
    return write_cell(CELL_SEED, seed, STORE_SEED_LENGTH);
}
