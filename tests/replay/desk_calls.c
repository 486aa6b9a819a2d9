#include <string.h>

#include "operations.h"

/* The desk's parts, in the order in which they are loaded; their limits stand in the header. */
enum { COMPONENTS, EXPANDED, OWNERS, DESK_PARTS };
static struct lent desk[DESK_PARTS];

/* What is known of each part: its name, its limit, and the bytes of an element. */
static const struct {
    const char *name;
    size_t limit, size;
} kinds[DESK_PARTS] = {
    [COMPONENTS] = {"components", SNOWKNOLL_COMPONENTS_LENGTH, 2},
    [EXPANDED] = {"expanded", SNOWKNOLL_EXPANDED_LENGTH, 1},
    [OWNERS] = {"owners", SNOWKNOLL_OWNERS_LENGTH, 2},
};

/* Makes the first desk: every part at its limit and all zero. */
void first_desk(void)
{
    for (size_t i = 0; i < DESK_PARTS; i++) {
        desk[i] = lend(kinds[i].name, kinds[i].limit, kinds[i].size);
        seal(&desk[i]);
    }
}

/* Operation 25: another desk. Nothing is taken over before the whole call is known to be right. */
void call_desk(struct call *call)
{
    size_t lengths[DESK_PARTS];
    const uint8_t *bytes[DESK_PARTS];
    for (size_t i = 0; i < DESK_PARTS; i++) {
        lengths[i] = take_number(call, 4);
        if (lengths[i] > BEYOND * kinds[i].limit) call->bad = 1;
    }
    for (size_t i = 0; i < DESK_PARTS; i++) bytes[i] = take(call, lengths[i] * kinds[i].size);
    if (!ends(call)) return;
    for (size_t i = 0; i < DESK_PARTS; i++) {
        take_back(&desk[i]);
        desk[i] = lend(kinds[i].name, lengths[i], kinds[i].size);
        memcpy(desk[i].at, bytes[i], lengths[i] * kinds[i].size);
        seal(&desk[i]);
    }
    put_word("desk");
}

/* Operation 26: admits a release to the desk, with an origin. */
void call_release_in(struct call *call)
{
    uint8_t origin = (uint8_t)take_number(call, 1);
    struct lent item = take_rest(call, "item");
    if (!ends(call)) return;
    open_store();
    unseal(&desk[COMPONENTS]);
    unseal(&desk[EXPANDED]);
    snowknoll_admit_answer answer =
        snowknoll_desk_admit(BYTES(item), origin, FIVE_PARTS, BYTES(parts[ORIGINS]), NUMBERS(desk[COMPONENTS]),
                             BYTES(desk[EXPANDED]), counts);
    seal(&desk[COMPONENTS]);
    seal(&desk[EXPANDED]);
    close_store(answer.counts);
    put_row("release-in", answer.number, answer.row);
}

/* Operation 27: the current release of a component. */
void call_release(struct call *call)
{
    uint16_t component = (uint16_t)take_number(call, 2);
    struct lent f = take_numbers(call, "f", take_number(call, 2));
    if (!ends(call)) return;
    snowknoll_release_answer answer =
        snowknoll_current_release(STORE, NUMBERS(f), NUMBERS(desk[COMPONENTS]), BYTES(desk[EXPANDED]),
                                  NUMBERS(desk[OWNERS]), component);
    put_row("release", answer.number, answer.row);
    put_number(answer.index);
    put_number(answer.expanded);
    put_number(answer.frozen);
}

/* Operation 28: the sums of both columns. */
void call_columns(struct call *call)
{
    if (!ends(call)) return;
    put_word("columns");
    put_sum(&desk[COMPONENTS]);
    put_sum(&desk[EXPANDED]);
}
