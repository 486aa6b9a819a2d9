/* Admits items from C and holds the answers to documents 01 and 02: the five items of document 01; the numbers beside
 * rows and authors, each of which a check holds to the rows; the origins of rows; parts that are too short; and null
 * pointers for parts with nothing in them. Each part, item and id that it lends ends where nobody may touch memory. It says which answer is
 * wrong, and ends with status 1 then. */
#include "lending.h"
#include "snowknoll.h"

/* A store with room for so many rows and as many authors, with no dependencies, so many numbers in branches and so many
 * origins; an item, and the origin that it is admitted with. */
static uint8_t *keys, *ids, *origins, origin;
static uint16_t *rows, *branches;
static size_t places, numbers, known;
static snowknoll_counts counts;
static uint8_t item[SNOWKNOLL_MIN_ITEM];
#define NOTHING NULL, 0
#define PARTS keys, 32 * places, ids, 32 * places, rows, 4 * places, NOTHING, branches, numbers
#define STORE PARTS, counts
#define WITH_ORIGINS PARTS, origins, known, counts
#define ITEM lend(item, sizeof item), sizeof item

/* A store of six parts with nothing in them. */
static const snowknoll_counts none = {0, 0, 0};
#define EMPTY NOTHING, NOTHING, NOTHING, NOTHING, NOTHING, NOTHING, none

/* What stands in branches, and in origins, where nothing was written. */
enum { UNTOUCHED = 7777, UNKNOWN = 99 };

/* Begins an empty store. */
static void begin(size_t room_for, size_t numbers_of)
{
    places = known = room_for;
    numbers = numbers_of;
    origins = (uint8_t *)memset(room(known), UNKNOWN, known);
    keys = (uint8_t *)room(32 * places);
    ids = (uint8_t *)room(32 * places);
    rows = (uint16_t *)room(8 * places);
    branches = (uint16_t *)room(2 * numbers);
    for (size_t place = 0; place < numbers; place++) branches[place] = UNTOUCHED;
    counts = none;
}

/* Lays the smallest item: a mark, the first byte of its key, its index, the row that it follows or 0, the first byte of
 * its signature. */
static void lay(uint8_t mark, uint8_t key, uint8_t index, size_t previous, uint8_t signature)
{
    memset(item, 0, sizeof item);
    item[SNOWKNOLL_AT_LENGTH] = SNOWKNOLL_MIN_ITEM - 4;
    item[SNOWKNOLL_AT_KIND] = SNOWKNOLL_KIND_MESSAGE;
    item[SNOWKNOLL_AT_MARK] = mark;
    item[SNOWKNOLL_AT_KEY] = key;
    item[SNOWKNOLL_AT_INDEX] = index;
    item[SNOWKNOLL_AT_PAYLOAD + 2] = signature;
    if (previous > 0) memcpy(item + SNOWKNOLL_AT_PREVIOUS, ids + 32 * (previous - 1), 32);
}

/* Admits the item that was laid, and holds the answer's number and row. */
static void admit(uint16_t number, uint16_t row, const char *what)
{
    snowknoll_admit_answer answer = snowknoll_admit(ITEM, origin, WITH_ORIGINS);
    hold(answer.number == number && answer.row == row, what);
    counts = answer.counts;
}

/* The five items, admitted where they lie one after the other into a store of one row; then one more. */
static void try_five(void)
{
    static const uint8_t marks[] = {0, 102, 1, 1, 1}, indexes[] = {0, 0, 1, 1, 0};
    static const uint16_t answers[] = {7, 6, 0, 8, 9}, found[] = {0, 0, 1, 1, 0};
    uint8_t *intake = (uint8_t *)room(5 * SNOWKNOLL_MIN_ITEM), *key = (uint8_t *)room(32), *id = (uint8_t *)room(32);
    begin(1, SNOWKNOLL_ROW_BRANCHES + 1);
    for (size_t k = 0; k < 5; k++) {
        lay(marks[k], 0, indexes[k], 0, 0);
        memcpy(intake + SNOWKNOLL_MIN_ITEM * k, item, SNOWKNOLL_MIN_ITEM);
    }
    for (size_t k = 0; k < 5; k++) {
        size_t start = SNOWKNOLL_MIN_ITEM * k;
        snowknoll_admit_answer admitted =
            snowknoll_admit_at(intake, 725, start, start + SNOWKNOLL_MIN_ITEM, (uint8_t)(200 + k), WITH_ORIGINS);
        hold(admitted.number == answers[k] && admitted.row == found[k], "an item of the five");
        counts = admitted.counts;
    }
    hold(counts.rows == 1 && counts.authors == 1 && counts.deps == 0, "the counts afterwards");
    hold(origins[0] == 202, "the row has the origin of the first that was admitted");
    hold(snowknoll_id(intake + 2 * SNOWKNOLL_MIN_ITEM, SNOWKNOLL_MIN_ITEM, id) == SNOWKNOLL_DONE, "an item has an id");
    hold(memcmp(id, ids, 32) == 0 && memcmp(key, keys, 32) == 0, "the id and the key are in the store");
    hold(snowknoll_id(intake, 144, id) == SNOWKNOLL_SHORT && memcmp(id, ids, 32) == 0, "a refusal leaves the id");
    lay(1, 1, 1, 0, 0);
    admit(SNOWKNOLL_FULL, 0, "a store of one row is full");
    hold(counts.rows == 1, "the counts of a full store");
}

/* Holds the numbers of two authors and of five rows, and that nothing else in branches was written. */
static void hold_numbers(const uint16_t of_authors[2], const uint16_t of_rows[5], const char *what)
{
    for (size_t place = 0; place < numbers; place++) {
        uint16_t right = UNTOUCHED;
        if (place < counts.authors) right = of_authors[place];
        if (place >= SNOWKNOLL_ROW_BRANCHES && place < SNOWKNOLL_ROW_BRANCHES + counts.rows)
            right = of_rows[place - SNOWKNOLL_ROW_BRANCHES];
        hold(branches[place] == right, what);
    }
}

/* An author with two first messages, three releases on the first, and another author between them: the numbers beside
 * each row and author, after each admission. */
static void try_numbers(void)
{
    static const uint16_t first[2] = {1, 0}, both[2] = {1, 1}, again[2] = {2, 1}, new_row[5] = {0, 0, 0, 0, 0};
    static const uint16_t follows[5] = {1, 0, 0, 0, 0}, forks[5] = {2, 0, 0, 0, 0};
    begin(6, SNOWKNOLL_ROW_BRANCHES + 6);
    lay(1, 1, 1, 0, 0);
    admit(SNOWKNOLL_DONE, 1, "a first release");
    hold_numbers(first, new_row, "its author has 1, and it has 0");
    lay(1, 1, 2, 1, 0);
    admit(SNOWKNOLL_DONE, 2, "a second release");
    hold_numbers(first, follows, "the row before it has 1");
    lay(1, 2, 1, 0, 0);
    admit(SNOWKNOLL_DONE, 3, "another author");
    hold_numbers(both, follows, "a new author has 1");
    lay(1, 1, 2, 1, 1);
    admit(SNOWKNOLL_DONE, 4, "another second release");
    hold_numbers(both, forks, "the row before both has 2");
    admit(SNOWKNOLL_HELD, 4, "the same once more");
    hold_numbers(both, forks, "a refusal raises nothing");
    lay(1, 1, 1, 0, 1);
    admit(SNOWKNOLL_DONE, 5, "another first release");
    hold_numbers(again, forks, "its author has 2");
}

/* Each number that the counts reach is held to the rows, and no other is. */
static void try_wrong_numbers(void)
{
    for (size_t place = 0; place < numbers; place++) {
        size_t of_row = place - SNOWKNOLL_ROW_BRANCHES;
        int reached = place < counts.authors || (place >= SNOWKNOLL_ROW_BRANCHES && of_row < counts.rows);
        uint16_t right = branches[place];
        branches[place] = (uint16_t)(right + 1);
        hold(snowknoll_well_formed(STORE) == (reached ? SNOWKNOLL_STORE : SNOWKNOLL_DONE), "a number is one too high");
        branches[place] = (uint16_t)(right - 1);
        hold(snowknoll_well_formed(STORE) == (reached ? SNOWKNOLL_STORE : SNOWKNOLL_DONE), "a number is one too low");
        branches[place] = right;
    }
    hold(snowknoll_well_formed(STORE) == SNOWKNOLL_DONE, "the numbers as they were");
    branches[0] = 1;
    lay(1, 1, 2, 1, 2);
    admit(SNOWKNOLL_STORE, 0, "an item for a store with a wrong number");
}

/* Branches that have too few numbers: what they have is the limit. */
static void try_short(void)
{
    lay(1, 1, 1, 0, 0);
    begin(2, SNOWKNOLL_ROW_BRANCHES);
    admit(SNOWKNOLL_FULL, 0, "no number for a row");
    begin(2, 1);
    admit(SNOWKNOLL_FULL, 0, "one number for an author");
    begin(2, 0);
    admit(SNOWKNOLL_FULL, 0, "no number");
    begin(2, SNOWKNOLL_ROW_BRANCHES + 1);
    admit(SNOWKNOLL_DONE, 1, "a number for one row");
    lay(1, 1, 2, 1, 0);
    admit(SNOWKNOLL_FULL, 0, "no number for another");
    numbers = SNOWKNOLL_ROW_BRANCHES;
    hold(snowknoll_well_formed(STORE) == SNOWKNOLL_STORE, "a number too few");
}

/* Holds the report of a row's origin. */
static void report(uint16_t row, uint16_t number, uint8_t expected, const char *what)
{
    snowknoll_origin_answer answer = snowknoll_origin(WITH_ORIGINS, row);
    hold(answer.number == number && answer.origin == expected, what);
}

/* Origins: given at the first admission, and reported by row; HELD and a refusal leave them; too few of them. */
static void try_origins(void)
{
    begin(3, SNOWKNOLL_ROW_BRANCHES + 3);
    report(1, SNOWKNOLL_ROW, 0, "the origin of a row that is not there");
    lay(1, 1, 1, 0, 0);
    origin = 255;
    admit(SNOWKNOLL_DONE, 1, "an item of origin 255");
    origin = 4;
    admit(SNOWKNOLL_HELD, 1, "the same of origin 4");
    report(1, SNOWKNOLL_DONE, 255, "a held item keeps the first origin");
    lay(0, 1, 2, 1, 0);
    admit(SNOWKNOLL_SIGN, 0, "an item that is not signed");
    lay(1, 1, 2, 1, 0);
    admit(SNOWKNOLL_DONE, 2, "another item");
    report(2, SNOWKNOLL_DONE, 4, "its origin");
    report(0, SNOWKNOLL_ROW, 0, "the origin of row 0");
    report(3, SNOWKNOLL_ROW, 0, "the origin of a row above the count");
    hold(origins[0] == 255 && origins[1] == 4 && origins[2] == UNKNOWN, "nothing else is written");
    lay(1, 1, 3, 2, 0);
    known = 2;
    admit(SNOWKNOLL_FULL, 0, "no origin for another row");
    known = 1;
    hold(snowknoll_well_formed(STORE) == SNOWKNOLL_DONE, "a store is well formed without origins");
    admit(SNOWKNOLL_STORE, 0, "an origin too few for an admission");
    report(1, SNOWKNOLL_STORE, 0, "an origin too few for a report");
    origin = 0;
}

/* Null pointers for an item, and for the store that is to take one. */
static void try_nothing(void)
{
    uint8_t *id = (uint8_t *)room(32);
    hold(snowknoll_id(NOTHING, id) == SNOWKNOLL_SHORT, "the id of no item");
    hold(snowknoll_admit(NOTHING, 0, EMPTY).number == SNOWKNOLL_SHORT, "no item admitted");
    hold(snowknoll_admit_at(NOTHING, 0, 145, 0, EMPTY).number == SNOWKNOLL_SHORT, "no intake");
    lay(1, 1, 1, 0, 0);
    hold(snowknoll_admit(ITEM, 0, EMPTY).number == SNOWKNOLL_FULL, "a store of nothing is full");
    hold(snowknoll_admit_at(ITEM, 0, 145, 0, EMPTY).number == SNOWKNOLL_FULL, "a store of nothing, and an intake");
    begin(1, 0);
    hold(snowknoll_admit(ITEM, 0, keys, 32, ids, 32, rows, 4, NOTHING, NOTHING, origins, 1, none).number == SNOWKNOLL_FULL,
         "a store without branches is full");
    hold(snowknoll_origin(EMPTY, 1).number == SNOWKNOLL_ROW, "the origin of a row of nothing");
}

int main(void)
{
    try_five();
    try_numbers();
    try_wrong_numbers();
    try_short();
    try_origins();
    try_nothing();
    return failures != 0;
}
