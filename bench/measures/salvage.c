/* The rescue of a stick, snowknoll_salvage: 1,024 items in reverse order, so that each waits for the one behind it, beside the
 * morning's intake of the same items in order. First items of 300 bytes; then the largest that a store of 1,024 takes, of
 * 6,001 bytes as far as there are places for their dependencies, and of 4,273 bytes. */
#include "../turns.h"
#include "snowknoll.h"

#include <stdio.h>
#include <string.h>

enum { ITEMS = SNOWKNOLL_MAX_ROWS, AUTHORS = SNOWKNOLL_MAX_AUTHORS, NAMED = 55, LARGE = 40 };
static uint8_t in_order[ITEMS * (size_t)SNOWKNOLL_MAX_ITEM], reversed[sizeof in_order], clean[sizeof in_order];
static size_t length, sizes[ITEMS];
static uint8_t ids[ITEMS][SNOWKNOLL_ID_BYTES];
static uint16_t list[2 * ITEMS];

/* The store that takes them. */
static uint8_t keys[SNOWKNOLL_KEYS_LENGTH], row_ids[SNOWKNOLL_IDS_LENGTH], origins[SNOWKNOLL_ORIGINS_LENGTH];
static uint16_t rows[SNOWKNOLL_ROWS_LENGTH], deps[SNOWKNOLL_DEPS_LENGTH], branches[SNOWKNOLL_BRANCHES_LENGTH];
#define PARTS                                                                                                            \
    keys, sizeof keys, row_ids, sizeof row_ids, rows, SNOWKNOLL_ROWS_LENGTH, deps, SNOWKNOLL_DEPS_LENGTH, branches,      \
    SNOWKNOLL_BRANCHES_LENGTH, origins, sizeof origins

/* Whether the last call did all that it was to do. */
static int done;

/* Lays the items of 64 authors who release in turn, each depending on the one before it, with payloads of this size; some of
 * those at the end depend on 55. */
static void lay(size_t payload, size_t large)
{
    static const uint8_t none[SNOWKNOLL_ID_BYTES], signature[SNOWKNOLL_SIGNATURE_BYTES], bytes[SNOWKNOLL_MAX_PAYLOAD];
    length = 0;
    for (size_t row = 0; row < ITEMS; row++) {
        uint8_t key[SNOWKNOLL_KEY_BYTES] = {(uint8_t)(1 + row % AUTHORS)};
        size_t named = row == 0 ? 0 : row >= ITEMS - large ? NAMED : 1;
        snowknoll_count_answer made = snowknoll_write_item(
            1, key, sizeof key, row < AUTHORS ? none : ids[row - AUTHORS], SNOWKNOLL_ID_BYTES, (uint32_t)(1 + row / AUTHORS),
            bytes, payload, named ? ids[row - named] : NULL, named * SNOWKNOLL_ID_BYTES, signature, sizeof signature,
            in_order + length, sizeof in_order - length);
        hold(snowknoll_id(in_order + length, made.count, ids[row]) == SNOWKNOLL_DONE, "an item is sound");
        sizes[row] = made.count;
        length += made.count;
    }
    for (size_t row = 0, at = 0; row < ITEMS; at += sizes[row++])
        memcpy(reversed + length - at - sizes[row], in_order + at, sizes[row]);
}

static void take_in(void)
{
    const snowknoll_counts none = {0, 0, 0};
    snowknoll_intake_answer answer = snowknoll_take_in(in_order, length, 0, PARTS, none, list, 2 * ITEMS);
    done = answer.items == ITEMS && answer.counts.rows == ITEMS;
}

static void salvage(void)
{
    snowknoll_salvage_answer answer = snowknoll_salvage(reversed, length, PARTS, clean, length, list, 2 * ITEMS);
    done = answer.counts.rows == ITEMS && answer.bytes == length;
}

/* Measures the rescue of such items beside their intake. */
static void measure(const char *work, size_t payload, size_t large)
{
    lay(payload, large);
    salvage();
    hold(done && memcmp(clean, in_order, length) == 0, "all items are kept, in order");
    take_in();
    hold(done, "all items are taken in");
    compare(work, salvage, "the intake of the same in order", take_in, 1);
}

int main(void)
{
    measure("salvage of 1,024 items in reverse, 300 bytes", 300 - SNOWKNOLL_MIN_ITEM - SNOWKNOLL_ID_BYTES, 0);
    measure("salvage of 1,024 items in reverse, up to 6,001 bytes", SNOWKNOLL_MAX_PAYLOAD, LARGE);
    return 0;
}
