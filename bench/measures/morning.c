/* A whole morning's intake: 900 items of 300 bytes, taken into an empty store in one call, beside the same items admitted
 * one by one, and beside the second program's way with them. */
#include "../others/second.h"
#include "../stores.h"
#include "../turns.h"

#include <string.h>

/* The items, of 64 authors who release in turn, each depending on the one before it; all have one size. */
enum { ITEMS = 900, ITEM = 300, PAYLOAD = ITEM - SNOWKNOLL_MIN_ITEM };
static uint8_t items[ITEMS][ITEM], ids[ITEMS][SNOWKNOLL_ID_BYTES];

/* The store that takes them, the list of their answers, and whether the last call did all that it was to do. */
static store taking;
static uint16_t list[SNOWKNOLL_ANSWER_NUMBERS * ITEMS];
static int done;
#define TAKING(counts)                                                                                         \
    PARTS_OF(&taking), taking.branches[0], SNOWKNOLL_BRANCHES_LENGTH, taking.origins, sizeof taking.origins, counts

/* Lays the items, each written and its id made by the library. */
static void lay_items(void)
{
    static const uint8_t none[SNOWKNOLL_ID_BYTES], signature[SNOWKNOLL_SIGNATURE_BYTES], payload[PAYLOAD];
    for (size_t row = 0; row < ITEMS; row++) {
        uint8_t key[SNOWKNOLL_KEY_BYTES] = {(uint8_t)(1 + row % AUTHORS)};
        const uint8_t *previous = row < AUTHORS ? none : ids[row - AUTHORS];
        size_t names = row > 0 ? SNOWKNOLL_ID_BYTES : 0;
        snowknoll_count_answer made = snowknoll_write_item(
            1, key, sizeof key, previous, SNOWKNOLL_ID_BYTES, (uint32_t)(1 + row / AUTHORS), payload, PAYLOAD - names,
            row > 0 ? ids[row - 1] : NULL, names, signature, sizeof signature, items[row], ITEM);
        hold(made.count == ITEM, "an item has its size");
        hold(snowknoll_id(items[row], ITEM, ids[row]) == SNOWKNOLL_DONE, "an item is sound");
    }
}

static void take_in(void)
{
    const snowknoll_counts none = {0, 0, 0};
    snowknoll_intake_answer answer = snowknoll_take_in(
        items[0], sizeof items, 0, TAKING(none), list, sizeof list / sizeof *list);
    done = answer.number == SNOWKNOLL_DONE && answer.items == ITEMS && answer.counts.rows == ITEMS;
}

static void one_by_one(void)
{
    snowknoll_counts counts = {0, 0, 0};
    for (size_t row = 0; row < ITEMS; row++)
        counts = snowknoll_admit(items[row], ITEM, 0, TAKING(counts)).counts;
    done = counts.rows == ITEMS;
}

static void second(void)
{
    done = second_admits(items[0], ITEM, ITEMS) == ITEMS;
}

/* Measures the call beside another, which must do its work too. */
static void measure(const char *other, void (*theirs)(void))
{
    take_in();
    hold(done, "the items in one call");
    theirs();
    hold(done, other);
    compare("900 items of 300 bytes in one call", take_in, other, theirs, 1);
}

int main(void)
{
    lay_items();
    measure("one by one", one_by_one);
    measure("the second program", second);
    return 0;
}
