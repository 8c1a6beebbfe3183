/* The proved ciphers and the plain ones on the same data in one run: nanoseconds a block. The rounds go to and fro between the two, and
   the least time of each counts, so that whatever else the machine does weighs little. */
#include <stdint.h>
#include <stdio.h>
#include <string.h>
#include <time.h>
#include "limits.h"
#include "plain.h"
#include "rows.h"

void leaf_chacha(const uint32_t state[16], uint8_t *out, size_t room);
void leaf_sha1(uint32_t hash[5], const uint32_t message[16]);

enum { BLOCKS = 20000, ROUNDS = 40 };

static double now(void) {
    struct timespec t;
    clock_gettime(CLOCK_MONOTONIC, &t);
    return t.tv_sec * 1e9 + t.tv_nsec;
}

static double chacha(int proved, uint8_t sum[64]) {
    uint32_t s[16];
    uint8_t out[64];
    for (int i = 0; i < 16; i++) s[i] = 0x9e3779b9u * (i + 1);
    memset(sum, 0, 64);
    double from = now();
    for (int n = 0; n < BLOCKS; n++) {
        if (proved) leaf_chacha(s, out, sizeof out); else plain_chacha(s, out);
        s[12]++;
        for (int i = 0; i < 64; i += 8) {
            uint64_t a, b;
            memcpy(&a, sum + i, 8);
            memcpy(&b, out + i, 8);
            a ^= b;
            memcpy(sum + i, &a, 8);
        }
    }
    return (now() - from) / BLOCKS;
}

static double sha1(int proved, uint32_t h[5]) {
    static const uint32_t start[5] = {0x67452301, 0xefcdab89, 0x98badcfe, 0x10325476, 0xc3d2e1f0};
    uint32_t m[16];
    for (int i = 0; i < 16; i++) m[i] = 0x85ebca6bu * (i + 1);
    memcpy(h, start, sizeof start);
    double from = now();
    for (int n = 0; n < BLOCKS; n++) {
        if (proved) leaf_sha1(h, m); else plain_sha1(h, m);
        m[n % 16] ^= h[0];
    }
    return (now() - from) / BLOCKS;
}

int main(void) {
    double least[2][2] = {{1e18, 1e18}, {1e18, 1e18}};
    uint8_t sums[2][64];
    uint32_t hashes[2][5];
    for (int r = 0; r < ROUNDS; r++)
        for (int proved = 0; proved < 2; proved++) {
            double t = chacha(proved, sums[proved]);
            if (t < least[0][proved]) least[0][proved] = t;
            t = sha1(proved, hashes[proved]);
            if (t < least[1][proved]) least[1][proved] = t;
        }
    if (memcmp(sums[0], sums[1], 64) || memcmp(hashes[0], hashes[1], sizeof hashes[0])) {
        puts("the proved and the plain code differ");
        return 1;
    }
    print_row("ChaCha20 block, 64 bytes", least[0][1], least[0][0], 0, limit_block());
    print_row("SHA-1 compression, 64 bytes", least[1][1], least[1][0], 0, limit_compression());
    return 0;
}
