/* A call under way: its arguments, read from the front, and the parts that are lent for it. */
#ifndef REPLAY_CALL_H
#define REPLAY_CALL_H

#include "lent.h"
#include "snowknoll.h"

/* The longest call, and the largest rooms, in bytes and in numbers. */
#define CALL_LIMIT ((size_t)16777216)
#define BYTES_LIMIT ((size_t)16777216)
#define NUMBERS_LIMIT ((size_t)65536)

/* The most parts that are lent for one call. */
#define LENT_LIMIT 8

/* A call: what is left of its arguments; whether they are wrong, after which nothing is read and nothing printed; and
 * the parts that are given back when it is over. */
struct call {
    const uint8_t *rest;
    size_t left;
    int bad;
    struct lent lent[LENT_LIMIT];
    size_t lents;
};

/* The next bytes, where they stand in the call. */
const uint8_t *take(struct call *call, size_t bytes);

/* The next number of so many bytes, low byte first. */
size_t take_number(struct call *call, size_t bytes);

/* The next log state. */
snowknoll_state take_state(struct call *call);

/* The next elements, lent for reading only: so many bytes, all bytes that are left, or so many numbers. */
struct lent take_bytes(struct call *call, const char *name, size_t count);
struct lent take_rest(struct call *call, const char *name);
struct lent take_numbers(struct call *call, const char *name, size_t count);

/* The next numbers, lent for writing too. */
struct lent take_list(struct call *call, const char *name, size_t count);

/* An output of so many bytes or numbers, every byte of it 238, so that every number is 61166. */
struct lent room_of_bytes(struct call *call, const char *name, size_t count);
struct lent room_of_numbers(struct call *call, const char *name, size_t count);

/* Whether the call is right and nothing of it is left. */
int ends(struct call *call);

/* Gives all parts back that were lent for the call. */
void finish(struct call *call);

#endif
