/* Stands in for the C library's header, which the Rattle kit does not have: what tests/replay and
 * programs/salvage.c use. */
#pragma once
#include <stddef.h>
long read(int file, void *to, size_t bytes);
long write(int file, const void *from, size_t bytes);
unsigned int alarm(unsigned int seconds);
int fsync(int file);
int isatty(int file);
