/* The two proved ciphers behind a line of text each, so that another program's ciphers can be asked the same: reads lines from standard
   input, writes one line of hex for each.
     chacha KEY COUNTER NONCE BLOCKS    32 bytes, a number, 12 bytes: so many blocks of key stream
     sha1 BYTES                         the digest; `-` for no bytes
   Padding and counting are done here; the block function and the compression are the proved ones. */
#include <stdint.h>
#include <stdio.h>
#include <stdlib.h>
#include <string.h>

void leaf_chacha(const uint32_t state[16], uint8_t *out, size_t room);
void leaf_sha1(uint32_t hash[5], const uint32_t message[16]);

enum { MOST = 1 << 16 };

static size_t bytes_of(const char *hex, uint8_t *out) {
    size_t n = 0;
    if (strcmp(hex, "-") == 0) return 0;
    for (; hex[0] && hex[1]; hex += 2) {
        unsigned byte;
        if (sscanf(hex, "%2x", &byte) != 1 || n == MOST) exit(2);
        out[n++] = (uint8_t)byte;
    }
    return n;
}

static void show(const uint8_t *bytes, size_t n) {
    for (size_t i = 0; i < n; i++) printf("%02x", bytes[i]);
    putchar('\n');
}

static uint32_t little(const uint8_t *b) { return b[0] | (uint32_t)b[1] << 8 | (uint32_t)b[2] << 16 | (uint32_t)b[3] << 24; }

static uint32_t big(const uint8_t *b) { return (uint32_t)b[0] << 24 | (uint32_t)b[1] << 16 | (uint32_t)b[2] << 8 | b[3]; }

static void chacha(const char *key, uint32_t counter, const char *nonce, unsigned blocks) {
    static uint8_t k[MOST], n[MOST], out[64];
    uint32_t state[16] = {0x61707865, 0x3320646e, 0x79622d32, 0x6b206574};
    if (bytes_of(key, k) != 32 || bytes_of(nonce, n) != 12) exit(2);
    for (int i = 0; i < 8; i++) state[4 + i] = little(k + 4 * i);
    state[12] = counter;
    for (int i = 0; i < 3; i++) state[13 + i] = little(n + 4 * i);
    for (unsigned b = 0; b < blocks; b++) {
        leaf_chacha(state, out, sizeof out);
        for (size_t i = 0; i < sizeof out; i++) printf("%02x", out[i]);
        state[12]++;
    }
    putchar('\n');
}

static void sha1(const char *hex) {
    static uint8_t bytes[MOST + 128], digest[20];
    uint32_t hash[5] = {0x67452301, 0xefcdab89, 0x98badcfe, 0x10325476, 0xc3d2e1f0}, message[16];
    size_t n = bytes_of(hex, bytes), whole = (n + 8) / 64 * 64 + 64;
    memset(bytes + n, 0, whole - n);
    bytes[n] = 0x80;
    for (int i = 0; i < 8; i++) bytes[whole - 1 - i] = (uint8_t)((uint64_t)n * 8 >> 8 * i);
    for (size_t at = 0; at < whole; at += 64) {
        for (int i = 0; i < 16; i++) message[i] = big(bytes + at + 4 * i);
        leaf_sha1(hash, message);
    }
    for (int i = 0; i < 20; i++) digest[i] = (uint8_t)(hash[i / 4] >> (24 - 8 * (i % 4)));
    show(digest, sizeof digest);
}

int main(void) {
    static char line[4 * MOST], key[2 * MOST + 1], nonce[2 * MOST + 1];
    unsigned counter, blocks;
    while (fgets(line, sizeof line, stdin)) {
        if (sscanf(line, "chacha %131072s %u %131072s %u", key, &counter, nonce, &blocks) == 4)
            chacha(key, counter, nonce, blocks);
        else if (sscanf(line, "sha1 %131072s", key) == 1)
            sha1(key);
        else
            return 2;
    }
    return 0;
}
