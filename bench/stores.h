/* The stores of the measures. There are several, with other ids, and each call takes the next one: a processor that is
 * shown one store again and again learns its branches, and the time of a call would say nothing of a new store. */
#ifndef STORES_H
#define STORES_H

#include "snowknoll.h"

enum { STORES = 32, AUTHORS = SNOWKNOLL_MAX_AUTHORS, ROWS = SNOWKNOLL_MAX_ROWS, DEPENDENCIES = 4, SIZES = 5 };

/* The lent parts of a store. Of branches there is one for each size that is measured: 64 rows, 128 and so on to 1,024. */
typedef struct {
    uint8_t keys[SNOWKNOLL_KEYS_LENGTH], ids[SNOWKNOLL_IDS_LENGTH];
    uint16_t rows[SNOWKNOLL_ROWS_LENGTH], deps[SNOWKNOLL_DEPS_LENGTH], branches[SIZES][SNOWKNOLL_BRANCHES_LENGTH];
    uint8_t origins[SNOWKNOLL_ORIGINS_LENGTH];
} store;

/* The sets of stores: ids by chance; ids that all fall into one bucket of the check; and, the slowest stores that we know,
 * as many ids in each of three buckets as are searched to the end, and one too many in a fourth. */
enum { BY_CHANCE, ONE_BUCKET, FOUR_BUCKETS, SETS };
static store sets[SETS][STORES];

/* The arguments of a call: a store's parts but for branches, and a store of which so much is in use. */
#define PARTS_OF(s)                                                                                      \
    (s)->keys, sizeof (s)->keys, (s)->ids, sizeof (s)->ids, (s)->rows, SNOWKNOLL_ROWS_LENGTH, (s)->deps, \
    SNOWKNOLL_DEPS_LENGTH
#define STORE_OF(s, counts) PARTS_OF(s), (s)->branches[size_of((counts).rows)], SNOWKNOLL_BRANCHES_LENGTH, counts

/* Which of the sizes that are measured so many rows are. */
static inline size_t size_of(size_t rows)
{
    size_t size = 0;
    while (rows >> size > AUTHORS) size++;
    return size;
}

/* The next store of a set. */
static inline store *next_of(int set)
{
    static size_t at;
    at = (at + 1) % STORES;
    return sets[set] + at;
}

/* The next store with ids by chance. */
static inline store *next_store(void)
{
    return next_of(BY_CHANCE);
}

/* The next byte of a series that looks like chance, and is the same in every run. */
static inline uint8_t random_byte(void)
{
    static size_t state = 88172645463325252u;
    state ^= state << 13;
    state ^= state >> 7;
    state ^= state << 17;
    return (uint8_t)(state >> 24);
}

/* How much of a store its first rows use. */
static inline snowknoll_counts counts_of(size_t rows)
{
    snowknoll_counts counts = {rows, rows < AUTHORS ? rows : AUTHORS, 0};
    for (size_t row = 0; row < rows; row++) counts.deps += row < DEPENDENCIES ? row : DEPENDENCIES;
    return counts;
}

/* Fills a store's branches for so many rows: each author has one first release, and each release but the last is followed
 * by one. */
static inline void fill_branches(uint16_t *branches, size_t rows)
{
    for (size_t author = 0; author < AUTHORS; author++) branches[SNOWKNOLL_AUTHOR_BRANCHES + author] = 1;
    for (size_t row = 0; row < rows; row++) branches[SNOWKNOLL_ROW_BRANCHES + row] = row + AUTHORS < rows;
}

/* Fills a store: 64 authors release in turn, and each release depends on the four before it. */
static inline void fill_store(store *s)
{
    uint16_t *number = s->rows, *dependency = s->deps;
    for (size_t i = 0; i < sizeof s->keys; i++) s->keys[i] = random_byte();
    for (size_t i = 0; i < sizeof s->ids; i++) s->ids[i] = random_byte();
    for (size_t row = 0; row < ROWS; row++) {
        size_t count = row < DEPENDENCIES ? row : DEPENDENCIES;
        *number++ = (uint16_t)(1 + row % AUTHORS);
        *number++ = (uint16_t)(row < AUTHORS ? 0 : row + 1 - AUTHORS);
        *number++ = (uint16_t)(1 + row / AUTHORS);
        *number++ = (uint16_t)count;
        for (size_t k = 0; k < count; k++) *dependency++ = (uint16_t)(row - k);
    }
    for (size_t size = 0; size < SIZES; size++) fill_branches(s->branches[size], (size_t)AUTHORS << size);
}

/* Changes the last byte of each id so that the ids of a store fall into the buckets of its set. */
static inline void into_buckets(store *s, int set)
{
    for (size_t row = 0; row < ROWS; row++) {
        uint8_t *id = s->ids + SNOWKNOLL_ID_BYTES * row;
        int bucket = set == FOUR_BUCKETS ? (row >= 257) + (row >= 514) + (row >= 766) : 0;
        id[31] = id[0] ^ id[1] ^ id[30] ^ (uint8_t)bucket;
    }
}

/* Fills the stores of all sets. */
static inline void fill_stores(void)
{
    for (int set = 0; set < SETS; set++)
        for (store *s = sets[set]; s < sets[set] + STORES; s++) {
            fill_store(s);
            if (set != BY_CHANCE) into_buckets(s, set);
        }
}

#endif
