#include "call.h"

#include <stdlib.h>
#include <string.h>

/* What every byte of an output is before the call. */
#define UNTOUCHED 238

/* The next bytes, or NULL where too few are left. */
const uint8_t *take(struct call *call, size_t bytes)
{
    const uint8_t *taken = call->rest;
    if (call->bad || bytes > call->left) {
        call->bad = 1;
        return NULL;
    }
    call->rest += bytes;
    call->left -= bytes;
    return taken;
}

/* The next number, or 0 where too few bytes are left. */
size_t take_number(struct call *call, size_t bytes)
{
    const uint8_t *taken = take(call, bytes);
    size_t number = 0;
    while (taken && bytes > 0) number = number * 256 + taken[--bytes];
    return number;
}

/* The next five numbers, whether they are a state or not. */
snowknoll_state take_state(struct call *call)
{
    snowknoll_state state;
    state.author = (uint16_t)take_number(call, 2);
    state.phase = (uint16_t)take_number(call, 2);
    state.last = (uint16_t)take_number(call, 2);
    state.low = (uint16_t)take_number(call, 2);
    state.high = (uint16_t)take_number(call, 2);
    return state;
}

/* Lends a part until the call is over. */
static struct lent lend_for(struct call *call, const char *name, size_t count, size_t size)
{
    if (call->lents == LENT_LIMIT) exit(1);
    return call->lent[call->lents++] = lend(name, count, size);
}

/* Lends a read-only copy of the next elements. Numbers lie in the call as in memory, low byte first. */
static struct lent copy_of(struct call *call, const char *name, size_t count, size_t size)
{
    struct lent part = {0};
    const uint8_t *taken = take(call, count * size);
    if (!taken) return part;
    part = lend_for(call, name, count, size);
    memcpy(part.at, taken, count * size);
    seal(&part);
    return part;
}

/* Lends the next bytes, read-only. */
struct lent take_bytes(struct call *call, const char *name, size_t count)
{
    return copy_of(call, name, count, 1);
}

/* Lends all bytes that are left, read-only. */
struct lent take_rest(struct call *call, const char *name)
{
    return copy_of(call, name, call->left, 1);
}

/* Lends the next numbers, read-only. */
struct lent take_numbers(struct call *call, const char *name, size_t count)
{
    return copy_of(call, name, count, 2);
}

/* Lends the next numbers, to be changed. */
struct lent take_list(struct call *call, const char *name, size_t count)
{
    struct lent part = copy_of(call, name, count, 2);
    if (!call->bad) unseal(&part);
    return part;
}

/* Lends an output, unless it is above its limit. */
static struct lent room_of(struct call *call, const char *name, size_t count, size_t size, size_t limit)
{
    struct lent part = {0};
    if (count > limit) call->bad = 1;
    if (call->bad) return part;
    part = lend_for(call, name, count, size);
    memset(part.at, UNTOUCHED, count * size);
    seal(&part);
    unseal(&part);
    return part;
}

/* Lends an output of bytes. */
struct lent room_of_bytes(struct call *call, const char *name, size_t count)
{
    return room_of(call, name, count, 1, BYTES_LIMIT);
}

/* Lends an output of numbers. */
struct lent room_of_numbers(struct call *call, const char *name, size_t count)
{
    return room_of(call, name, count, 2, NUMBERS_LIMIT);
}

/* Whether the call is right; something that is left of it makes it wrong. */
int ends(struct call *call)
{
    if (call->left > 0) call->bad = 1;
    return !call->bad;
}

/* Gives back all that was lent for the call. */
void finish(struct call *call)
{
    while (call->lents > 0) take_back(&call->lent[--call->lents]);
}
