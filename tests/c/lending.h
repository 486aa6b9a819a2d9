/* What the programs that call the library from C use to lend memory and to hold answers. */
#ifndef LENDING_H
#define LENDING_H

#include <stdint.h>
#include <stdio.h>
#include <string.h>
#include <sys/mman.h>

static int failures;

/* Says what is wrong, and remembers it. */
static inline void hold(int holds, const char *what)
{
    if (!holds) printf("wrong: %s\n", what);
    if (!holds) failures = failures + 1;
}

/* Room for so many bytes, of zeros, right before memory that nobody may touch. */
static inline void *room(size_t bytes)
{
    uint8_t *start = (uint8_t *)mmap(NULL, 131072, PROT_READ | PROT_WRITE, MAP_PRIVATE | MAP_ANONYMOUS, -1, 0);
    hold(start != MAP_FAILED && mprotect(start + 65536, 65536, PROT_NONE) == 0, "there is memory");
    return start + 65536 - bytes;
}

/* A copy of some bytes in such room. */
static inline uint8_t *lend(const void *bytes, size_t length)
{
    return (uint8_t *)memcpy(room(length), bytes, length);
}

#endif
