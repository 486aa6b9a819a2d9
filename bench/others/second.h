/* The second program of tests/, which works every answer out by sets and paths, as a library. */
#ifndef SECOND_H
#define SECOND_H

#include <stddef.h>
#include <stdint.h>

/* Admits items one by one to an empty store: how many were admitted. Each begins so many bytes after the one before it. */
size_t second_admits(const uint8_t *items, size_t stride, size_t count);

/* What the second program prints for an intake: how many bytes, which it puts to the start of out as far as they fit. */
size_t second_intake(const uint8_t *bytes, size_t length, uint8_t *out, size_t room);

#endif
