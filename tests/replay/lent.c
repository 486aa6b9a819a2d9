#include "lent.h"

#include <stdlib.h>
#include <string.h>
#include <sys/mman.h>

/* The bytes of a guard, and of what a part is rounded up to: a multiple of the page of every machine. */
#define GUARD ((size_t)65536)

struct manner manner;

/* Whether a name is the one that the command line says. */
static int is_said(const char *name, const char *said)
{
    return said && strcmp(name, said) == 0;
}

/* Sets what may be done with all that lies between a part's guards. */
static void protect(const struct lent *part, int protection)
{
    if (part->middle && mprotect(part->mapping + GUARD, part->middle, protection)) exit(1);
}

/* Maps a part between two guards. Of an empty one the address may not be touched, and is not null. */
struct lent lend(const char *name, size_t count, size_t size)
{
    struct lent part = {name, NULL, count, size, NULL, (count * size + GUARD - 1) / GUARD * GUARD};
    part.mapping = mmap(NULL, part.middle + 2 * GUARD, PROT_NONE, MAP_PRIVATE | MAP_ANONYMOUS, -1, 0);
    if (part.mapping == MAP_FAILED) exit(1);
    part.at = part.mapping + GUARD + (manner.begins ? 0 : part.middle - count * size);
    protect(&part, PROT_READ | PROT_WRITE);
    return part;
}

/* Makes a part read-only. */
void seal(const struct lent *part)
{
    protect(part, PROT_READ);
}

/* Makes a part writable, but for the one that is to stay read-only. */
void unseal(const struct lent *part)
{
    if (!is_said(part->name, manner.sealed)) protect(part, PROT_READ | PROT_WRITE);
}

/* Gives a part's mapping back, guards and all. */
void take_back(const struct lent *part)
{
    if (munmap(part->mapping, part->middle + 2 * GUARD)) exit(1);
}

/* The first byte, or the one before it where the part reaches back. */
uint8_t *bytes_of(const struct lent *part)
{
    return part->at - (manner.begins && is_said(part->name, manner.reaching) ? part->size : 0);
}

/* The same for numbers, which are aligned at either end. */
uint16_t *numbers_of(const struct lent *part)
{
    return (uint16_t *)(void *)bytes_of(part);
}

/* How many elements there are, or one more where the part reaches further. */
size_t count_of(const struct lent *part)
{
    return part->count + (is_said(part->name, manner.reaching) ? 1 : 0);
}

/* The first byte, or the one before or after it, where one byte of a known number is to lie beyond the part. */
uint8_t *fixed_of(const struct lent *part)
{
    if (!is_said(part->name, manner.reaching)) return part->at;
    return manner.begins ? part->at - 1 : part->at + 1;
}
