/* The one store that replay holds: its parts, and its counts. */
#ifndef REPLAY_STORE_H
#define REPLAY_STORE_H

#include "lent.h"
#include "snowknoll.h"

/* The parts, in the order in which they are loaded and dumped. */
enum { KEYS, IDS, ROWS, DEPS, BRANCHES, ORIGINS, PARTS };
extern struct lent parts[PARTS];
extern snowknoll_counts counts;

/* The store as the calls take it, without its origins and with them. Its parts are read-only but between open_store and
 * close_store. */
#define FIVE_PARTS \
    BYTES(parts[KEYS]), BYTES(parts[IDS]), NUMBERS(parts[ROWS]), NUMBERS(parts[DEPS]), NUMBERS(parts[BRANCHES])
#define STORE FIVE_PARTS, counts
#define STORE_WITH_ORIGINS FIVE_PARTS, BYTES(parts[ORIGINS]), counts

/* How far above its limit a part may be lent: so many times. */
#define BEYOND 4

/* Makes the first store: every part at its limit and all zero, counts of 0. */
void first_store(void);

/* The most elements that a part may have, and the bytes of an element. */
size_t most_of(size_t part);
size_t size_of(size_t part);

/* Puts another part in the place of one: so many elements, copied from these bytes. */
void replace(size_t part, size_t count, const uint8_t *bytes);

/* Makes all parts writable, for an admission. */
void open_store(void);

/* Makes all parts read-only again, and takes the counts that the admission answers. */
void close_store(snowknoll_counts after);

#endif
