/* SHA-256 as it is written in plain C. */
#ifndef PLAIN_SHA256_H
#define PLAIN_SHA256_H

#include <stddef.h>
#include <stdint.h>

/* Writes the digest of a message. */
void plain_sha256(const uint8_t *message, size_t length, uint8_t digest[32]);

#endif
