/* Stands in for the C library's header, which the Rattle kit does not have: what tests/replay and
 * programs/salvage.c use. */
#pragma once
#include <stddef.h>
__attribute__((noreturn)) void exit(int status);
void *malloc(size_t bytes);
void *realloc(void *old, size_t bytes);
