/* The keeper written straight from the customer's rules, and not from the proved code: plain C as a careful programmer writes it for
   speed and for reading, over the record of nk.h. The proved keeper is measured against it and compared with it. */
#include "plain_keeper.h"
#include "plain.h"
#include "plain_range.h"
#include <string.h>

enum { INPUT_SIZE = 32768, BLOCKING_SIZE = 8192 }; /* in eighths of a bit */
enum { FIRST_SEEDING = 1024, RESEED_AFTER = 300000, SPILL_AFTER = 1000, SPILL_AT = 64 };
enum { NEW_UNTIL = 3 }; /* kept events of a device that have to come before one that earns */

static const uint32_t constants[4] = {0x61707865, 0x3320646e, 0x79622d32, 0x6b206574};

static struct nk_answer answer(uint32_t number, uint32_t delivered, uint32_t blocks, uint32_t compressions, uint32_t added) {
    struct nk_answer a = {number, delivered, blocks, compressions, added};
    return a;
}

static struct nk_answer refusal(uint32_t number) {
    return answer(number, 0, 0, 0, 0);
}

/* A call that is done, delivers nothing, runs no cipher and credits nothing. */
static struct nk_answer done(void) {
    return answer(NK_DONE, 0, 0, 0, 0);
}

static inline uint32_t rotl(uint32_t x, uint32_t k) {
    return x << (k & 31) | x >> ((32 - k) & 31);
}

static inline void put32(uint8_t *to, uint32_t x) {
    to[0] = (uint8_t)x;
    to[1] = (uint8_t)(x >> 8);
    to[2] = (uint8_t)(x >> 16);
    to[3] = (uint8_t)(x >> 24);
}

static inline uint32_t get32(const uint8_t *from) {
    return from[0] | (uint32_t)from[1] << 8 | (uint32_t)from[2] << 16 | (uint32_t)from[3] << 24;
}

static inline int32_t since(uint32_t now, uint32_t then) {
    return (int32_t)(now - then);
}

/* Pools. The shape is a constant in every use, and the inner functions are inlined, so each pool gets code of its own. */

struct shape {
    uint32_t words, taps[4];
};
static const struct shape input_shape = {128, {104, 76, 51, 25}}, blocking_shape = {32, {26, 19, 14, 7}};

static inline void mix(uint32_t *words, struct nk_spot *spot, const struct shape *s, const uint8_t *bytes, size_t len) {
    static const uint32_t twist[8] = {0x00000000, 0x3b6e20c8, 0x76dc4190, 0x4db26158, 0xedb88320, 0xd6d6a3e8, 0x9b64c2b0, 0xa00ae278};
    /* the last tap is 1: the word written last, which need not be loaded again */
    uint32_t mask = s->words - 1, i = spot->at, turn = spot->turn, last = words[i];
    while (len-- > 0) {
        uint32_t w = rotl(*bytes++, turn);
        i = (i - 1) & mask;
        w ^= words[i];
        for (int t = 0; t < 4; t++) w ^= words[(i + s->taps[t]) & mask];
        w ^= last;
        words[i] = last = w >> 3 ^ twist[w & 7];
        turn = (turn + (i ? 7 : 14)) & 31;
    }
    spot->at = i;
    spot->turn = turn;
}

static void mix_input(struct nk_keeper *k, const uint8_t *bytes, size_t len) {
    mix(k->input, &k->ledger.input.spot, &input_shape, bytes, len);
}

static void mix_blocking(struct nk_keeper *k, const uint8_t *bytes, size_t len) {
    mix(k->blocking, &k->ledger.blocking.spot, &blocking_shape, bytes, len);
}

/* Fills out with bytes of the pool, ten a block; gives back the compressions. */
static inline uint32_t extract(uint32_t *words, struct nk_spot *spot, const struct shape *s, uint8_t *out, uint32_t len) {
    uint32_t compressions = 0;
    while (len > 0) {
        uint32_t hash[5] = {0x67452301, 0xefcdab89, 0x98badcfe, 0x10325476, 0xc3d2e1f0}, message[16];
        uint8_t bytes[20];
        for (uint32_t from = 0; from < s->words; from += 16) {
            /* pool words lie little endian, SHA-1 reads big endian */
            for (int i = 0; i < 16; i++) message[i] = __builtin_bswap32(words[from + i]);
            plain_sha1(hash, message);
            compressions++;
        }
        for (int i = 0; i < 5; i++) put32(bytes + 4 * i, hash[i]);
        mix(words, spot, s, bytes, sizeof bytes);
        put32(bytes, hash[0] ^ hash[3]);
        put32(bytes + 4, hash[1] ^ hash[4]);
        put32(bytes + 8, hash[2] ^ rotl(hash[2], 16));
        uint32_t part = len < 10 ? len : 10;
        for (uint32_t i = 0; i < part; i++) out[i] = bytes[i];
        out += part;
        len -= part;
    }
    return compressions;
}

static uint32_t extract_input(struct nk_keeper *k, uint8_t *out, uint32_t len) {
    return extract(k->input, &k->ledger.input.spot, &input_shape, out, len);
}

static uint32_t extract_blocking(struct nk_keeper *k, uint8_t *out, uint32_t len) {
    return extract(k->blocking, &k->ledger.blocking.spot, &blocking_shape, out, len);
}

/* Credits and debits. Bits are at most 8 x 4,096, so 32 bits hold every product. */

/* Gives back the units added: what all turns together moved the count by. */
static uint32_t credit(uint32_t *count, uint32_t size, uint32_t bits) {
    uint32_t rest = 8 * bits, before = *count, have = before;
    if (rest == 0) return 0;
    do {
        uint32_t a = rest < size / 2 ? rest : size / 2;
        have += (size - have) * a * 3 / (4 * size);
        rest -= a;
    } while (rest > 0 && have < size - 2);
    *count = have;
    return have - before;
}

static uint32_t debit(uint32_t *count, uint32_t wanted, uint32_t least) {
    uint32_t taken = *count / 64;
    if (taken > wanted) taken = wanted;
    if (taken < least) return 0;
    *count -= 64 * taken;
    return taken;
}

static uint32_t reseed(struct nk_keeper *k, uint32_t now) {
    uint8_t bytes[32];
    uint32_t taken = debit(&k->ledger.input.count, 32, 16);
    if (taken == 0) return 0;
    uint32_t compressions = extract_input(k, bytes, taken);
    for (uint32_t i = 0; i < taken; i++) k->generator[4 + i / 4] ^= (uint32_t)bytes[i] << 8 * (i % 4);
    k->ledger.seeding.clock = now;
    k->ledger.seeding.mark = 1;
    return compressions;
}

/* The end of a call that credits the input pool: the credit, and the seeding of a keeper that was waiting for it. What was added stands
   before the seeding takes from it. */
static struct nk_answer credit_input(struct nk_keeper *k, uint32_t now, uint32_t bits) {
    uint32_t added = credit(&k->ledger.input.count, INPUT_SIZE, bits), compressions = 0;
    if (bits > 0 && k->ledger.seeding.mark != 1 && k->ledger.input.count >= FIRST_SEEDING) compressions = reseed(k, now);
    return answer(NK_DONE, 0, 0, compressions, added);
}

/* The calls. */

struct nk_answer plain_make(struct nk_keeper *k, const uint8_t *start, size_t start_len) {
    if (start_len != NK_START_LENGTH) return refusal(NK_START_NOT_48);
    memset(k, 0, sizeof *k);
    for (int i = 0; i < 4; i++) k->generator[i] = constants[i];
    for (int i = 0; i < 12; i++) k->generator[4 + i] = get32(start + 4 * i);
    return done();
}

static inline uint64_t amount(int64_t x) {
    return x < 0 ? 0 - (uint64_t)x : (uint64_t)x;
}

struct nk_answer plain_event(struct nk_keeper *k, uint32_t device, uint32_t now, uint64_t stamp, uint32_t value) {
    uint8_t bytes[16];
    if (!plain_in_range(k)) return refusal(NK_OUT_OF_RANGE);
    if (device >= NK_DEVICES) return refusal(NK_NO_SUCH_DEVICE);
    if (device == 0 && value == k->ledger.value) return refusal(NK_REPEATED);
    put32(bytes, (uint32_t)stamp);
    put32(bytes + 4, (uint32_t)(stamp >> 32));
    put32(bytes + 8, now);
    put32(bytes + 12, value);
    mix_input(k, bytes, sizeof bytes);

    int64_t d1 = since(now, k->clocks[device]), d2 = d1 - k->firsts[device], d3 = d2 - k->seconds[device];
    k->clocks[device] = now;
    k->firsts[device] = d1;
    k->seconds[device] = d2;
    if (device == 0) k->ledger.value = value;
    if (k->came[device] < NEW_UNTIL) {
        k->came[device]++;
        return done();
    }

    uint64_t least = amount(d1);
    if (amount(d2) < least) least = amount(d2);
    if (amount(d3) < least) least = amount(d3);
    uint32_t bits = least == 0 ? 0 : least >= 2048 ? 11 : 31 - (uint32_t)__builtin_clz((uint32_t)least);
    return credit_input(k, now, bits);
}

struct nk_answer plain_interrupt(struct nk_keeper *k, uint32_t now, uint32_t number, uint64_t stamp, uint64_t address) {
    uint8_t bytes[16];
    if (!plain_in_range(k)) return refusal(NK_OUT_OF_RANGE);
    uint32_t a = k->fast[0] ^ (uint32_t)stamp ^ number;
    uint32_t b = k->fast[1] ^ now ^ (uint32_t)(stamp >> 32);
    uint32_t c = k->fast[2] ^ (uint32_t)address;
    uint32_t d = k->fast[3] ^ (uint32_t)(address >> 32);
    for (int twice = 0; twice < 2; twice++) {
        a += b; c += d; b = rotl(b, 6); d = rotl(d, 27); d ^= a; b ^= c;
        a += b; c += d; b = rotl(b, 16); d = rotl(d, 14); d ^= a; b ^= c;
    }
    k->fast[0] = a;
    k->fast[1] = b;
    k->fast[2] = c;
    k->fast[3] = d;
    if (++k->ledger.spill.tally < SPILL_AT && since(now, k->ledger.spill.clock) <= SPILL_AFTER) return done();
    put32(bytes, a);
    put32(bytes + 4, b);
    put32(bytes + 8, c);
    put32(bytes + 12, d);
    mix_input(k, bytes, sizeof bytes);
    k->ledger.spill.tally = 0;
    k->ledger.spill.clock = now;
    return credit_input(k, now, 1);
}

struct nk_answer plain_write(struct nk_keeper *k, const uint8_t *bytes, size_t len) {
    if (!plain_in_range(k)) return refusal(NK_OUT_OF_RANGE);
    if (len > NK_LENGTH_MOST) return refusal(NK_TOO_LONG);
    mix_input(k, bytes, len);
    return done();
}

struct nk_answer plain_seed(struct nk_keeper *k, uint32_t now, const uint8_t *bytes, size_t len, uint32_t credit) {
    if (!plain_in_range(k)) return refusal(NK_OUT_OF_RANGE);
    if (len > NK_LENGTH_MOST) return refusal(NK_TOO_LONG);
    if (credit > 8 * len) return refusal(NK_CREDIT_TOO_HIGH);
    mix_input(k, bytes, len);
    return credit_input(k, now, credit);
}

static void next_block(uint32_t generator[16], uint8_t *out) {
    plain_chacha(generator, out);
    if (++generator[12] == 0) ++generator[13];
}

struct nk_answer plain_read_in_range(struct nk_keeper *k, uint32_t now, uint8_t *out, size_t len) {
    uint8_t last[64];
    if (len > NK_LENGTH_MOST) return refusal(NK_TOO_LONG);
    if (len == 0) return done();
    if (k->ledger.seeding.mark != 1) return refusal(NK_UNSEEDED);
    uint32_t compressions = since(now, k->ledger.seeding.clock) > RESEED_AFTER ? reseed(k, now) : 0;
    uint32_t blocks = 0, used = 64;
    size_t left = len;
    for (; left >= 64; left -= 64, out += 64, blocks++) next_block(k->generator, out);
    if (left > 0) {
        next_block(k->generator, last);
        blocks++;
        for (size_t i = 0; i < left; i++) out[i] = last[i];
        used = ((uint32_t)left + 3) & ~3u;
    }
    /* the key changes by 32 bytes that nobody was given */
    if (used > 32) {
        next_block(k->generator, last);
        blocks++;
        used = 0;
    }
    for (int i = 0; i < 8; i++) k->generator[4 + i] ^= get32(last + used + 4 * i);
    return answer(NK_DONE, (uint32_t)len, blocks, compressions, 0);
}

struct nk_answer plain_read(struct nk_keeper *k, uint32_t now, uint8_t *out, size_t len) {
    if (!plain_in_range(k)) return refusal(NK_OUT_OF_RANGE);
    return plain_read_in_range(k, now, out, len);
}

struct nk_answer plain_blocking_read(struct nk_keeper *k, uint8_t *out, size_t len) {
    struct nk_ledger *l = &k->ledger;
    if (!plain_in_range(k)) return refusal(NK_OUT_OF_RANGE);
    if (len > NK_LENGTH_MOST) return refusal(NK_TOO_LONG);
    if (len == 0) return done();
    if (l->blocking.count < 64 && l->input.count < 512) return refusal(NK_WOULD_BLOCK);
    uint32_t n = (uint32_t)len, compressions = 0, added = 0;
    if (l->blocking.count < 64 * n) {
        uint8_t bytes[128];
        uint32_t taken = debit(&l->input.count, n < 8 ? 8 : n > 128 ? 128 : n, 8);
        if (taken > 0) {
            compressions += extract_input(k, bytes, taken);
            mix_blocking(k, bytes, taken);
            added = credit(&l->blocking.count, BLOCKING_SIZE, 8 * taken);
        }
    }
    uint32_t delivered = debit(&l->blocking.count, n, 0);
    compressions += extract_blocking(k, out, delivered);
    return answer(NK_DONE, delivered, 0, compressions, added);
}
