/* Follows a trace of conversions that the second program wrote (`oracle converts`; its first lines say what a trace looks like) and makes each
   call through the C face: the number, the length and every byte of the room must be the trace's. The journal, and bytes around all that is
   lent, must stay. Prints how many calls were followed; the exit status is 1 at the first difference. */
#include <stdint.h>
#include <stdio.h>
#include <string.h>

#include "nk_convert.h"
#include "trace_lines.h"

enum { GUARD = 64, MOST = 1 << 17 };

/* The bytes behind a journal and behind a room that are no part of it guard it too. */
static struct {
    uint8_t before_journal[GUARD];
    uint8_t journal[MOST];
    uint8_t before_room[GUARD];
    uint8_t room[MOST];
    uint8_t after[GUARD];
} lent, expected;

static size_t length;

static void lend_journal(char *rest) {
    memset(lent.journal, 0x5a, MOST);
    length = bytes(&rest, lent.journal, MOST);
}

static void lend_room(size_t room_len, uint8_t fill) {
    memset(lent.room, 0x5a, MOST);
    fill_room(lent.room, room_len, fill);
}

/* lays a piece into the room that is expected, a part of the journal or bytes; how long it is */
static size_t lay(char *piece, uint8_t *to, size_t most) {
    char *count = strchr(piece, '+');
    if (!count) return bytes_in(piece, to, most);
    *count++ = 0;
    size_t from = number_in(piece, length), n = number_in(count, length - from);
    if (n > most) fail("a trace that lays bytes past the room");
    memcpy(to, lent.journal + from, n);
    return n;
}

static void convert(char *rest) {
    size_t room_len = number_up_to(&rest, MOST);
    lend_room(room_len, (uint8_t)number_up_to(&rest, UINT8_MAX));
    memcpy(&expected, &lent, sizeof lent);
    struct nk_converted got = nk_convert(lent.journal, length, lent.room, room_len);
    rest = follows("answer");
    compare("the number", got.number, number(&rest));
    compare("the length", got.len, number_up_to(&rest, SIZE_MAX));
    rest = follows("room");
    size_t laid = 0;
    while (rest) laid += lay(word(&rest), expected.room + laid, room_len - laid);
    if (laid != got.len) fail("a room of another length than was answered");
    if (memcmp(lent.room, expected.room, room_len)) fail("another room");
    if (memcmp(&lent, &expected, sizeof lent)) fail("a byte was written that no call writes");
}

int main(void) {
    unsigned long journals = 0;
    memset(&lent, 0x5a, sizeof lent);
    while (next_line()) {
        if (line[0] == '#' || line[0] == 0) continue;
        if (!strncmp(line, "journal ", 8)) {
            journals++;
            lend_journal(line + 8);
        } else if (!strncmp(line, "convert ", 8)) {
            calls++;
            convert(line + 8);
        } else {
            fail("a line that is not known");
        }
    }
    if (calls == 0) fail("no call in the trace");
    printf("%lu calls on %lu journals followed, every byte of the room compared after each\n", calls, journals);
    return 0;
}
