/* Stands in for the C library's header, which the Rattle kit does not have: what tests/c/calls.c and tests/replay use, with
 * the numbers of Linux on x86-64. */
#pragma once
#include <stddef.h>
#define PROT_NONE 0
#define PROT_READ 1
#define PROT_WRITE 2
#define MAP_PRIVATE 2
#define MAP_ANONYMOUS 32
#define MAP_FAILED ((void *)-1)
void *mmap(void *at, size_t bytes, int protection, int flags, int file, long place);
int mprotect(void *at, size_t bytes, int protection);
int munmap(void *at, size_t bytes);
