/* Stands in for the C library's header, which the Rattle kit does not have: what the example and tests/replay use. */
#pragma once
#include <stddef.h>
int memcmp(const void *one, const void *other, size_t bytes);
void *memcpy(void *to, const void *from, size_t bytes);
void *memset(void *to, int value, size_t bytes);
int strcmp(const char *one, const char *other);
size_t strlen(const char *text);
