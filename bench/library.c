/* The proved ciphers and OpenSSL's in one run, nanoseconds for 4,096 bytes. OpenSSL is hand-written assembly that uses the
   machine's vector and hash instructions; it is what a server would use, and what a small controller does not have. */
#define _POSIX_C_SOURCE 200809L
#define OPENSSL_SUPPRESS_DEPRECATED
#include <openssl/evp.h>
#include <openssl/sha.h>
#include <stdint.h>
#include <stdio.h>
#include <string.h>
#include <time.h>

#include "limits.h"
#include "rows.h"

void leaf_chacha(const uint32_t state[16], uint8_t *out, size_t room);
void leaf_sha1(uint32_t hash[5], const uint32_t message[16]);

enum { BYTES = 4096, CALLS = 200, ROUNDS = 40 };

static uint8_t in[BYTES], ours[BYTES], theirs[BYTES];
static uint8_t key[32], nonce[16];

static double now(void) {
    struct timespec t;
    clock_gettime(CLOCK_MONOTONIC, &t);
    return (double)t.tv_sec * 1e9 + (double)t.tv_nsec;
}

static void our_chacha(void) {
    uint32_t state[16] = {0x61707865, 0x3320646e, 0x79622d32, 0x6b206574};
    memcpy(state + 4, key, 32);
    memcpy(state + 12, nonce, 16);
    for (int i = 0; i < BYTES; i += 64, state[12]++) leaf_chacha(state, ours + i, 64);
}

static void their_chacha(void) {
    EVP_CIPHER_CTX *c = EVP_CIPHER_CTX_new();
    int n;
    EVP_EncryptInit_ex(c, EVP_chacha20(), NULL, key, nonce);
    EVP_EncryptUpdate(c, theirs, &n, in, BYTES); /* `in` is zero: the key stream itself */
    EVP_CIPHER_CTX_free(c);
}

static void our_sha1(void) {
    uint32_t hash[5] = {0x67452301, 0xefcdab89, 0x98badcfe, 0x10325476, 0xc3d2e1f0}, m[16];
    for (int at = 0; at < BYTES; at += 64) {
        for (int i = 0; i < 16; i++) {
            const uint8_t *b = in + at + 4 * i;
            m[i] = (uint32_t)b[0] << 24 | (uint32_t)b[1] << 16 | (uint32_t)b[2] << 8 | b[3];
        }
        leaf_sha1(hash, m);
    }
    memcpy(ours, hash, 20);
}

static void their_sha1(void) {
    SHA_CTX c;
    SHA1_Init(&c);
    SHA1_Update(&c, in, BYTES); /* whole blocks, no padding: the hash value stands in the context */
    memcpy(theirs, &c.h0, 4);
    memcpy(theirs + 4, &c.h1, 4);
    memcpy(theirs + 8, &c.h2, 4);
    memcpy(theirs + 12, &c.h3, 4);
    memcpy(theirs + 16, &c.h4, 4);
}

static int compare(const char *name, void (*proved)(void), void (*library)(void), size_t same, double limit) {
    double least[2] = {1e18, 1e18};
    for (int round = 0; round < ROUNDS; round++)
        for (int k = 0; k < 2; k++) {
            double from = now();
            for (int i = 0; i < CALLS; i++) (k ? library : proved)();
            double each = (now() - from) / CALLS;
            if (each < least[k]) least[k] = each;
        }
    if (memcmp(ours, theirs, same)) {
        printf("FAILED: %s: the proved code and OpenSSL differ\n", name);
        return 1;
    }
    print_row(name, least[0], 0, least[1], limit);
    return 0;
}

int main(void) {
    for (int i = 0; i < 32; i++) key[i] = (uint8_t)(i * 7 + 1);
    nonce[5] = 9;
    int bad = compare("ChaCha20, 4,096 bytes", our_chacha, their_chacha, BYTES, 0);
    for (int i = 0; i < BYTES; i++) in[i] = (uint8_t)(i * 167 + (i >> 3));
    return bad | compare("SHA-1, 4,096 bytes", our_sha1, their_sha1, 20, 64 * limit_compression());
}
