/* The two ciphers of plain.c, one block a call. */
#ifndef PLAIN_H
#define PLAIN_H

#include <stdint.h>

/* The 64 bytes of the ChaCha20 block of a state. */
void plain_chacha(const uint32_t state[16], uint8_t *out);

/* SHA-1's hash value after one more block, whose words are already numbers. */
void plain_sha1(uint32_t hash[5], const uint32_t message[16]);

#endif
