#include "store.h"

#include <string.h>

struct lent parts[PARTS];
snowknoll_counts counts;

/* What is known of each part: its name, its limit, and the bytes of an element. */
static const struct {
    const char *name;
    size_t limit, size;
} kinds[PARTS] = {
    [KEYS] = {"keys", SNOWKNOLL_KEYS_LENGTH, 1},
    [IDS] = {"ids", SNOWKNOLL_IDS_LENGTH, 1},
    [ROWS] = {"rows", SNOWKNOLL_ROWS_LENGTH, 2},
    [DEPS] = {"deps", SNOWKNOLL_DEPS_LENGTH, 2},
    [BRANCHES] = {"branches", SNOWKNOLL_BRANCHES_LENGTH, 2},
    [ORIGINS] = {"origins", SNOWKNOLL_ORIGINS_LENGTH, 1},
};

/* Makes the first store; fresh memory is all zero. */
void first_store(void)
{
    for (size_t i = 0; i < PARTS; i++) {
        parts[i] = lend(kinds[i].name, kinds[i].limit, kinds[i].size);
        seal(&parts[i]);
    }
}

/* The most elements that a part may have. */
size_t most_of(size_t part)
{
    return BEYOND * kinds[part].limit;
}

/* The bytes of one element: 1, or 2 for numbers. */
size_t size_of(size_t part)
{
    return kinds[part].size;
}

/* Gives an old part back and puts a new one in its place. */
void replace(size_t part, size_t count, const uint8_t *bytes)
{
    take_back(&parts[part]);
    parts[part] = lend(kinds[part].name, count, kinds[part].size);
    memcpy(parts[part].at, bytes, count * kinds[part].size);
    seal(&parts[part]);
}

/* Makes all parts writable. */
void open_store(void)
{
    for (size_t i = 0; i < PARTS; i++) unseal(&parts[i]);
}

/* Makes all parts read-only, and takes the counts that were answered. */
void close_store(snowknoll_counts after)
{
    for (size_t i = 0; i < PARTS; i++) seal(&parts[i]);
    counts = after;
}
