/* Whether ids are distinct, as it is written in plain C. */
#ifndef ID_SET_H
#define ID_SET_H

#include <stddef.h>
#include <stdint.h>

/* Puts ids of 32 bytes into a set, one after the other, at most 1,024 of them: 1 where all are distinct, else 0. */
int id_set_distinct(const uint8_t *ids, size_t count);

/* Compares every pair of them. */
int id_pairs_distinct(const uint8_t *ids, size_t count);

#endif
