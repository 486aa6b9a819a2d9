/* SHA-256, for the sums that are printed. It is not the library's. */
#ifndef REPLAY_SHA256_H
#define REPLAY_SHA256_H

#include <stddef.h>
#include <stdint.h>

#define SHA256_BYTES 32

/* Writes the SHA-256 of some bytes. */
void sha256(const uint8_t *bytes, size_t count, uint8_t sum[SHA256_BYTES]);

#endif
