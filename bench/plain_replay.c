/* A journal of version 1 or 2 replayed by the plain keeper: plain_replay FILE.. writes the transcript of each to standard output. Written
   straight from the customer's rules, not from the proved code: it reads a file whole, goes through it by a pointer, and writes with stdio.
   The examples' transcripts are its work, and the proved program is measured against it. */
#include <stdio.h>
#include "plain_keeper.h"

enum { JOURNAL_MOST = 61440, HEADER = 53, DEVICES_OF_VERSION_1 = 16 };
enum { END_GOOD = 0, END_TOO_LONG = 3, END_MARK = 8, END_VERSION = 9, END_CUT = 10, END_KIND = 11, END_TOO_LARGE = 12 };

static uint8_t journal[JOURNAL_MOST + 1], out[NK_LENGTH_MOST];
static struct nk_keeper keeper;

static uint32_t get16(const uint8_t *p) { return p[0] | (uint32_t)p[1] << 8; }
static uint32_t get32(const uint8_t *p) { return get16(p) | get16(p + 2) << 16; }
static uint64_t get64(const uint8_t *p) { return get32(p) | (uint64_t)get32(p + 4) << 32; }

static void line(struct nk_answer a, const struct nk_keeper *k) {
    static const char digits[] = "0123456789abcdef";
    char hex[2 * NK_LENGTH_MOST];
    printf("%u %u %u %u %u %u %u", a.number, a.delivered, k->ledger.input.count, k->ledger.blocking.count, a.blocks, a.compressions,
        a.added);
    if (a.delivered > 0) {
        for (uint32_t i = 0; i < a.delivered; i++) {
            hex[2 * i] = digits[out[i] >> 4];
            hex[2 * i + 1] = digits[out[i] & 15];
        }
        putchar(' ');
        fwrite(hex, 1, 2 * a.delivered, stdout);
    }
    putchar('\n');
}

/* An event, from its clock on. Version 1 has one byte for the device and was written when there were sixteen: its replay refuses others as
   it always did, though the keeper has them now. */
static struct nk_answer event(struct nk_keeper *k, uint32_t version, const uint8_t *p) {
    uint32_t now = get32(p), device = version == 1 ? p[4] : get16(p + 4);
    const uint8_t *rest = p + 4 + version;
    if (version == 1 && device >= DEVICES_OF_VERSION_1) return (struct nk_answer){.number = NK_NO_SUCH_DEVICE};
    return plain_event(k, device, now, get64(rest), get32(rest + 8));
}

/* Runs the records from p on; gives back the number of the last line. */
static int records(struct nk_keeper *k, uint32_t version, const uint8_t *p, const uint8_t *end) {
    const size_t sizes[7] = {0, 17 + version, 25, 7, 11, 7, 7}; /* the kind and the fields */
    while (p < end) {
        unsigned kind = *p;
        if (kind < 1 || kind > 6) return END_KIND;
        size_t left = (size_t)(end - p), size = sizes[kind];
        if (left < size) return END_CUT;
        uint32_t now = get32(p + 1), len;
        switch (kind) {
        case 1: line(event(k, version, p + 1), k); break;
        case 2: line(plain_interrupt(k, now, get32(p + 5), get64(p + 9), get64(p + 17)), k); break;
        case 5: line(plain_read(k, now, out, get16(p + 5)), k); break;
        case 6: line(plain_blocking_read(k, out, get16(p + 5)), k); break;
        default: /* 3 and 4 carry bytes */
            len = get16(p + 5);
            if (len > NK_LENGTH_MOST) return END_TOO_LONG;
            if (left - size < len) return END_CUT;
            line(kind == 3 ? plain_write(k, p + size, len) : plain_seed(k, now, p + size, len, get32(p + 7)), k);
            size += len;
        }
        p += size;
    }
    return END_GOOD;
}

static int replay(size_t n) {
    if (n > JOURNAL_MOST) return END_TOO_LARGE;
    if (n < 3 || journal[0] != 'N' || journal[1] != 'K' || journal[2] != 'J') return END_MARK;
    if (n < 5) return END_CUT;
    uint32_t version = get16(journal + 3);
    if (version != 1 && version != 2) return END_VERSION;
    if (n < HEADER) return END_CUT;
    plain_make(&keeper, journal + 5, NK_START_LENGTH);
    return records(&keeper, version, journal + HEADER, journal + n);
}

int main(int argc, char **argv) {
    int failed = 0;
    for (int i = 1; i < argc; i++) {
        FILE *f = fopen(argv[i], "rb");
        if (f == NULL) {
            perror(argv[i]);
            failed = 1;
            continue;
        }
        size_t n = fread(journal, 1, sizeof journal, f);
        int broken = ferror(f);
        if (broken) perror(argv[i]);
        fclose(f);
        if (broken) {
            failed = 1;
            continue;
        }
        printf("end %d\n", replay(n));
    }
    return failed;
}
