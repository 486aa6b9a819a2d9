/* Memory that is lent to the library. Each part is a mapping of its own between two stretches that may not be touched:
 * it ends exactly where the second begins, or, with --begins, begins exactly where the first ends. */
#ifndef REPLAY_LENT_H
#define REPLAY_LENT_H

#include <stddef.h>
#include <stdint.h>

/* One lent part: its name, its first element, how many elements it has, the bytes of one; and its mapping. */
struct lent {
    const char *name;
    uint8_t *at;
    size_t count, size;
    uint8_t *mapping;
    size_t middle;
};

/* How parts are lent, as the command line says: whether they begin at a guard; the part that is said to reach one
 * element beyond it, and the part that stays read-only where the library writes it, each NULL where nothing is said. */
extern struct manner {
    int begins;
    const char *reaching, *sealed;
} manner;

/* A part that may be written, all zero. */
struct lent lend(const char *name, size_t count, size_t size);

/* From now on the part is read-only. */
void seal(const struct lent *part);

/* From now on the part may be written. */
void unseal(const struct lent *part);

/* Gives the part's memory back. */
void take_back(const struct lent *part);

/* The part as the library is told of it: its first byte, its first number, how many elements it has. */
uint8_t *bytes_of(const struct lent *part);
uint16_t *numbers_of(const struct lent *part);
size_t count_of(const struct lent *part);

/* The first byte of a part whose length the library knows without being told. */
uint8_t *fixed_of(const struct lent *part);

/* A part as two arguments of a call, its start and its length. */
#define BYTES(part) bytes_of(&(part)), count_of(&(part))
#define NUMBERS(part) numbers_of(&(part)), count_of(&(part))

#endif
