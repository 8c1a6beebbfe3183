/* ChaCha20 and SHA-1 written straight from RFC 7539 and FIPS 180-4, as most C programs have them: what the proved code is
   measured against. */
#include "plain.h"

#define ROTL(x, k) (((x) << (k)) | ((x) >> (32 - (k))))
#define QUARTER(a, b, c, d)                                   \
    a += b; d ^= a; d = ROTL(d, 16); c += d; b ^= c; b = ROTL(b, 12); \
    a += b; d ^= a; d = ROTL(d, 8);  c += d; b ^= c; b = ROTL(b, 7)

void plain_chacha(const uint32_t state[16], uint8_t *out) {
    uint32_t x[16];
    for (int i = 0; i < 16; i++) x[i] = state[i];
    for (int n = 0; n < 10; n++) {
        QUARTER(x[0], x[4], x[8], x[12]);
        QUARTER(x[1], x[5], x[9], x[13]);
        QUARTER(x[2], x[6], x[10], x[14]);
        QUARTER(x[3], x[7], x[11], x[15]);
        QUARTER(x[0], x[5], x[10], x[15]);
        QUARTER(x[1], x[6], x[11], x[12]);
        QUARTER(x[2], x[7], x[8], x[13]);
        QUARTER(x[3], x[4], x[9], x[14]);
    }
    for (int i = 0; i < 16; i++) {
        uint32_t w = x[i] + state[i];
        out[4 * i] = (uint8_t)w;
        out[4 * i + 1] = (uint8_t)(w >> 8);
        out[4 * i + 2] = (uint8_t)(w >> 16);
        out[4 * i + 3] = (uint8_t)(w >> 24);
    }
}

void plain_sha1(uint32_t h[5], const uint32_t m[16]) {
    uint32_t w[80];
    for (int t = 0; t < 16; t++) w[t] = m[t];
    for (int t = 16; t < 80; t++) w[t] = ROTL(w[t - 3] ^ w[t - 8] ^ w[t - 14] ^ w[t - 16], 1);
    uint32_t a = h[0], b = h[1], c = h[2], d = h[3], e = h[4];
#define TWENTY(from, f, k)                                        \
    for (int t = from; t < from + 20; t++) {                      \
        uint32_t x = ROTL(a, 5) + (f) + e + k + w[t];             \
        e = d; d = c; c = ROTL(b, 30); b = a; a = x;              \
    }
    TWENTY(0, (b & c) | (~b & d), 0x5a827999)
    TWENTY(20, b ^ c ^ d, 0x6ed9eba1)
    TWENTY(40, (b & c) | (b & d) | (c & d), 0x8f1bbcdc)
    TWENTY(60, b ^ c ^ d, 0xca62c1d6)
    h[0] += a; h[1] += b; h[2] += c; h[3] += d; h[4] += e;
}
