/* Salvages sticks from C and holds the answers to document 02, request 11: what is kept and in which order, what becomes
 * of each other item, that room beyond stays, and that a refusal changes nothing. Each stick, room and list that it lends
 * ends where nobody may touch memory. It says which answer is wrong, and ends with status 1 then. */
#include "studio.h"

static studio store, whole;

/* A stick under way, and the clean intake that it is to give. */
enum { LONGEST = 2048 };
static uint8_t stick[LONGEST], wanted[LONGEST];
static size_t length, kept;

/* Adds bytes to the stick, or to the clean intake that is wanted. */
static void lay(const uint8_t *bytes, size_t count)
{
    memcpy(stick + length, bytes, count);
    length += count;
}
static void want(const message *m)
{
    memcpy(wanted + kept, m->item, m->length);
    kept += m->length;
}

/* A log of three in reverse, with one again, one whose mark is 0, a first message that nothing waits for, and an end that
 * is cut off. */
static void lay_stick(void)
{
    message first = compose(1, NULL, 0, "", 0, NULL), second = compose(1, &first, 0, "", 0, NULL);
    message third = compose(1, &second, 0, "gear", 4, NULL), alone = compose(2, NULL, 0, "", 0, &third);
    message unsigned_one = compose(3, NULL, 0, "", 0, NULL), missing = compose(4, NULL, 0, "", 0, &unsigned_one);
    unsigned_one.item[SNOWKNOLL_AT_MARK] = 0;
    lay(alone.item, alone.length), lay(third.item, third.length), lay(second.item, second.length);
    lay(second.item, second.length), lay(unsigned_one.item, unsigned_one.length), lay(missing.item, missing.length);
    lay(first.item, first.length), lay(first.item, 100);
    want(&first), want(&second), want(&third), want(&alone);
}

/* The answers that the eight items are to have. */
enum { ITEMS = 8 };
static const uint16_t right[2 * ITEMS] = {0, 4, 0, 3, 0, 2, 8, 2, 7, 0, 14, 0, 0, 1, 2, 0};

/* Salvages the stick into rooms of these sizes, filled with 238 before. */
static snowknoll_salvage_answer salvage(studio *s, uint8_t **clean, size_t bytes, uint16_t **list, size_t numbers)
{
    *clean = (uint8_t *)memset(room(bytes), 238, bytes);
    *list = (uint16_t *)memset(room(2 * numbers), 238, 2 * numbers);
    return snowknoll_salvage(lend(stick, length), length, PARTS(s), s->origins, SNOWKNOLL_ORIGINS_LENGTH, *clean, bytes, *list,
                             numbers);
}

/* What is kept, in its order; what becomes of each item; the store of the kept ones; the room beyond. */
static void try_stick(void)
{
    uint8_t *clean;
    uint16_t *list;
    memset(&store, 0xee, sizeof store);
    snowknoll_salvage_answer answer = salvage(&store, &clean, length, &list, 2 * ITEMS + 1);
    hold(answer.number == SNOWKNOLL_DONE && answer.items == ITEMS && answer.bytes == kept, "a stick is salvaged");
    hold(memcmp(clean, wanted, kept) == 0, "the clean intake");
    for (size_t k = kept; k < length; k++) hold(clean[k] == 238, "the room beyond it stays");
    hold(memcmp(list, right, sizeof right) == 0 && list[2 * ITEMS] == 61166, "the list, and the room beyond it");
    store.counts = answer.counts;
    hold(answer.counts.rows == 4 && snowknoll_well_formed(STORE(&store)) == SNOWKNOLL_DONE, "a sound store");
    hold(store.origins[0] == 0 && store.origins[3] == 0 && store.origins[4] == 0xee, "origin 0 for each, none beyond");
    snowknoll_intake_answer in = snowknoll_take_in(wanted, kept, 0, WITH_ORIGINS(&whole), list, 8);
    hold(in.items == 4 && list[0] == 0 && list[2] == 0 && list[4] == 0 && list[6] == 0, "every item of it is admitted");
    hold(memcmp(whole.ids, store.ids, 128) == 0 && memcmp(whole.rows, store.rows, 32) == 0, "and leaves the same store");
}

/* Each refusal changes nothing, and more than 1,024 items come before a room too small. */
static void try_refusals(void)
{
    uint8_t *clean, *zeros = (uint8_t *)room(4 * 1025);
    uint16_t *list;
    snowknoll_salvage_answer answer;
    whole = store;
    hold(salvage(&store, &clean, length - 1, &list, 2 * ITEMS).number == SNOWKNOLL_ROOM, "a byte too few");
    hold(clean[0] == 238 && list[0] == 61166, "nothing is written");
    hold(salvage(&store, &clean, length, &list, 2 * ITEMS - 1).number == SNOWKNOLL_ROOM, "a number too few");
    hold(clean[0] == 238 && list[0] == 61166, "nothing is written then either");
    answer = snowknoll_salvage(zeros, 4 * 1025, PARTS(&store), store.origins, SNOWKNOLL_ORIGINS_LENGTH, NULL, 0, NULL, 0);
    hold(answer.number == SNOWKNOLL_SIZE && answer.items == 0 && answer.bytes == 0, "more than 1,024 items");
    hold(memcmp(&whole, &store, sizeof store) == 0, "a refusal leaves the store");
}

/* A stick with nothing on it, and parts with room for nothing. */
static void try_nothing(void)
{
    uint16_t *list = (uint16_t *)room(2 * 2 * ITEMS);
    uint8_t *clean = (uint8_t *)room(length);
    snowknoll_salvage_answer answer =
        snowknoll_salvage(NULL, 0, NULL, 0, NULL, 0, NULL, 0, NULL, 0, NULL, 0, NULL, 0, NULL, 0, NULL, 0);
    hold(answer.number == SNOWKNOLL_DONE && answer.items == 0 && answer.counts.rows == 0, "nothing at all");
    answer = snowknoll_salvage(lend(stick, length), length, NULL, 0, NULL, 0, NULL, 0, NULL, 0, NULL, 0, NULL, 0, clean, length,
                               list, 2 * ITEMS);
    hold(answer.bytes == 0 && list[12] == SNOWKNOLL_FULL && list[13] == 0 && list[4] == SNOWKNOLL_PREV, "no room to keep");
}

int main(void)
{
    lay_stick();
    try_stick();
    try_refusals();
    try_nothing();
    return failures != 0;
}
