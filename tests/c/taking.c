/* Takes in stretches of items from C and holds the answers to document 02, request 4: one call gives and leaves what
 * admissions one by one do, the cutting ends where the program's does, and a refusal changes nothing. Each part, stretch
 * and list that it lends ends where nobody may touch memory. It says which answer is wrong, and ends with status 1 then. */
#include "lending.h"
#include "snowknoll.h"

/* A store with room for so many rows and as many authors, with no dependencies. */
typedef struct {
    uint8_t *keys, *ids, *origins;
    uint16_t *rows, *branches;
    size_t places;
    snowknoll_counts counts;
} store;
#define NUMBERS(s) (SNOWKNOLL_ROW_BRANCHES + (s)->places)
#define PARTS(s)                                                                                             \
    (s)->keys, 32 * (s)->places, (s)->ids, 32 * (s)->places, (s)->rows, 4 * (s)->places, NULL, 0, (s)->branches, \
    NUMBERS(s), (s)->origins, (s)->places, (s)->counts

/* What stands in the list, and in origins, where nothing was written. */
enum { UNTOUCHED = 61166, UNKNOWN = 99 };

/* The stretch under way, and where its next item begins. */
enum { ITEMS = 8, STRETCH = (ITEMS + 1) * SNOWKNOLL_MIN_ITEM };
static uint8_t stretch[STRETCH];
static size_t length;

/* An empty store. */
static store begin(size_t places)
{
    store s = {NULL, NULL, NULL, NULL, NULL, places, {0, 0, 0}};
    s.keys = (uint8_t *)room(32 * places);
    s.ids = (uint8_t *)room(32 * places);
    s.rows = (uint16_t *)room(8 * places);
    s.branches = (uint16_t *)room(2 * NUMBERS(&s));
    s.origins = (uint8_t *)memset(room(places), UNKNOWN, places);
    return s;
}

/* Whether two stores of one size hold the same. */
static int same(const store *a, const store *b)
{
    return a->counts.rows == b->counts.rows && a->counts.authors == b->counts.authors && a->counts.deps == b->counts.deps &&
           memcmp(a->keys, b->keys, 32 * a->places) == 0 && memcmp(a->ids, b->ids, 32 * a->places) == 0 &&
           memcmp(a->rows, b->rows, 8 * a->places) == 0 && memcmp(a->branches, b->branches, 2 * NUMBERS(a)) == 0 &&
           memcmp(a->origins, b->origins, a->places) == 0;
}

/* Adds the smallest item to the stretch: a mark, the first byte of its key, its index. */
static void lay(uint8_t mark, uint8_t key, uint8_t index)
{
    uint8_t *item = stretch + length;
    item[SNOWKNOLL_AT_LENGTH] = SNOWKNOLL_MIN_ITEM - 4;
    item[SNOWKNOLL_AT_KIND] = SNOWKNOLL_KIND_MESSAGE;
    item[SNOWKNOLL_AT_MARK] = mark;
    item[SNOWKNOLL_AT_KEY] = key;
    item[SNOWKNOLL_AT_INDEX] = index;
    length += SNOWKNOLL_MIN_ITEM;
}

/* Begins a stretch of eight items: document 01's five; two more authors, and the first item again. */
static void lay_items(void)
{
    static const uint8_t marks[ITEMS] = {0, 102, 1, 1, 1, 1, 1, 1}, keys[ITEMS] = {0, 0, 0, 0, 0, 1, 2, 0};
    static const uint8_t indexes[ITEMS] = {0, 0, 1, 1, 0, 1, 1, 1};
    memset(stretch, 0, sizeof stretch);
    length = 0;
    for (size_t k = 0; k < ITEMS; k++) lay(marks[k], keys[k], indexes[k]);
}

/* So many numbers that nothing was written to. */
static uint16_t *untouched(size_t numbers)
{
    uint16_t *list = (uint16_t *)room(2 * numbers);
    for (size_t k = 0; k < numbers; k++) list[k] = UNTOUCHED;
    return list;
}

/* Takes the stretch in with an origin, into a list of so many numbers, and keeps the counts. */
static snowknoll_intake_answer take_in(store *s, uint8_t origin, uint16_t *list, size_t numbers)
{
    snowknoll_intake_answer answer =
        snowknoll_take_in(lend(stretch, length), length, origin, PARTS(s), list, numbers);
    s->counts = answer.counts;
    return answer;
}

/* The eight items in one call, and one by one, into stores of several sizes: the same answers, and the same stores. */
static void try_one_by_one(void)
{
    for (size_t places = 0; places <= 4; places++) {
        store one = begin(places), other = begin(places);
        uint16_t *list = untouched(2 * ITEMS + 3);
        snowknoll_intake_answer answer = take_in(&one, 200, list, 2 * ITEMS + 3);
        hold(answer.number == SNOWKNOLL_DONE && answer.items == ITEMS, "eight items are taken in");
        for (size_t k = 0; k < ITEMS; k++) {
            const uint8_t *item = stretch + SNOWKNOLL_MIN_ITEM * k;
            snowknoll_admit_answer admitted = snowknoll_admit(item, SNOWKNOLL_MIN_ITEM, 200, PARTS(&other));
            other.counts = admitted.counts;
            hold(list[2 * k] == admitted.number && list[2 * k + 1] == admitted.row, "an answer in the list");
        }
        hold(same(&one, &other), "the store is that of admissions one by one");
        for (size_t k = 0; k < 3; k++) hold(list[2 * ITEMS + k] == UNTOUCHED, "the room beyond stays");
    }
}

/* The answers that document 01 has for its five items, and those of the three behind them. */
static void try_answers(void)
{
    static const uint16_t right[2 * ITEMS] = {7, 0, 6, 0, 0, 1, 8, 1, 9, 0, 0, 2, 0, 3, 8, 1};
    store s = begin(4);
    uint16_t *list = untouched(2 * ITEMS);
    take_in(&s, 7, list, 2 * ITEMS);
    hold(memcmp(list, right, sizeof right) == 0, "the answers in their order");
    hold(s.counts.rows == 3 && s.counts.authors == 3 && s.counts.deps == 0, "the counts afterwards");
    hold(s.origins[0] == 7 && s.origins[2] == 7 && s.origins[3] == UNKNOWN, "one origin for all");
    take_in(&s, 8, list, 2 * ITEMS);
    hold(list[4] == SNOWKNOLL_HELD && list[5] == 1 && s.origins[0] == 7, "the same again is held, with its first origin");
}

/* A last item that is cut, or whose length is damaged, takes all the rest. */
static void try_cutting(void)
{
    store s = begin(4);
    uint16_t *list = untouched(2 * ITEMS);
    length = 3 * SNOWKNOLL_MIN_ITEM - 1;
    hold(take_in(&s, 0, list, 6).items == 3 && list[4] == SNOWKNOLL_SHORT && list[5] == 0, "a cut item");
    length = 2 * SNOWKNOLL_MIN_ITEM + 3;
    hold(take_in(&s, 0, list, 6).items == 3 && list[4] == SNOWKNOLL_SHORT, "three bytes");
    length = ITEMS * SNOWKNOLL_MIN_ITEM;
    stretch[2 * SNOWKNOLL_MIN_ITEM] = SNOWKNOLL_MAX_LENGTH % 256 + 1;
    stretch[2 * SNOWKNOLL_MIN_ITEM + 1] = SNOWKNOLL_MAX_LENGTH / 256;
    hold(take_in(&s, 0, list, 6).items == 3 && list[4] == SNOWKNOLL_SIZE, "a length above the limit");
    hold(s.counts.rows == 0, "nothing behind it is read");
    lay_items();
}

/* The whole call refused: nothing is changed. */
static void try_refusals(void)
{
    store s = begin(4), before = begin(4);
    uint16_t *list = untouched(2 * ITEMS - 1);
    snowknoll_intake_answer answer = take_in(&s, 0, list, 2 * ITEMS - 1);
    hold(answer.number == SNOWKNOLL_ROOM && answer.items == 0, "a number too few for the answers");
    hold(take_in(&s, 0, list, 0).number == SNOWKNOLL_ROOM, "no list");
    s.counts.rows = before.counts.rows = 1;
    answer = take_in(&s, 0, list, 0);
    hold(answer.number == SNOWKNOLL_STORE && answer.items == 0 && answer.counts.rows == 1, "a damaged store comes first");
    hold(same(&s, &before), "a refusal leaves the store");
    for (size_t k = 0; k < 2 * ITEMS - 1; k++) hold(list[k] == UNTOUCHED, "a refusal leaves the list");
}

/* Origins that are fewer than the rows, or have no place for another one. */
static void try_origins(void)
{
    store s = begin(4);
    uint16_t *list = untouched(2 * ITEMS);
    take_in(&s, 0, list, 2 * ITEMS);
    hold(snowknoll_take_in(NULL, 0, 0, s.keys, 128, s.ids, 128, s.rows, 16, NULL, 0, s.branches, NUMBERS(&s), s.origins, 2,
                           s.counts, NULL, 0).number == SNOWKNOLL_STORE, "an origin too few");
    hold(snowknoll_take_in(NULL, 0, 0, s.keys, 128, s.ids, 128, s.rows, 16, NULL, 0, s.branches, NUMBERS(&s), s.origins, 3,
                           s.counts, NULL, 0).number == SNOWKNOLL_DONE, "an origin for each row");
}

/* Null pointers for a stretch with nothing in it, for its list, and for a store with nothing in it. */
static void try_nothing(void)
{
    const snowknoll_counts none = {0, 0, 0};
    uint16_t *list = untouched(2);
    snowknoll_intake_answer answer =
        snowknoll_take_in(NULL, 0, 0, NULL, 0, NULL, 0, NULL, 0, NULL, 0, NULL, 0, NULL, 0, none, NULL, 0);
    hold(answer.number == SNOWKNOLL_DONE && answer.items == 0 && answer.counts.rows == 0, "no items at all");
    answer = snowknoll_take_in(lend(stretch + 2 * SNOWKNOLL_MIN_ITEM, SNOWKNOLL_MIN_ITEM), SNOWKNOLL_MIN_ITEM, 0, NULL, 0, NULL,
                               0, NULL, 0, NULL, 0, NULL, 0, NULL, 0, none, list, 2);
    hold(answer.number == SNOWKNOLL_DONE && list[0] == SNOWKNOLL_FULL && list[1] == 0, "a store of nothing is full");
}

int main(void)
{
    lay_items();
    try_one_by_one();
    try_answers();
    try_cutting();
    try_refusals();
    try_origins();
    try_nothing();
    return failures != 0;
}
