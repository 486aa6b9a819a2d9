/* The items of the measures: of 64 authors who release in turn, each item depending on the one before it. */
#ifndef ITEMS_H
#define ITEMS_H

#include "stores.h"
#include "turns.h"

#include <string.h>

enum { ITEM = SNOWKNOLL_MIN_ITEM + SNOWKNOLL_ID_BYTES };
static uint8_t items[ROWS][ITEM], ids[SNOWKNOLL_IDS_LENGTH];

/* Lays the items, the id of each made by the library. */
static void lay_items(void)
{
    for (size_t row = 0; row < ROWS; row++) {
        uint8_t *item = items[row], *count = item + SNOWKNOLL_AT_PAYLOAD;
        item[SNOWKNOLL_AT_LENGTH] = ITEM - 4;
        item[SNOWKNOLL_AT_KIND] = SNOWKNOLL_KIND_MESSAGE;
        item[SNOWKNOLL_AT_MARK] = 1;
        item[SNOWKNOLL_AT_KEY] = (uint8_t)(1 + row % AUTHORS);
        item[SNOWKNOLL_AT_INDEX] = (uint8_t)(1 + row / AUTHORS);
        if (row >= AUTHORS) memcpy(item + SNOWKNOLL_AT_PREVIOUS, ids + 32 * (row - AUTHORS), 32);
        count[0] = row > 0;
        if (row > 0) memcpy(count + 2, ids + 32 * (row - 1), 32);
        if (row == 0) item[SNOWKNOLL_AT_LENGTH] -= SNOWKNOLL_ID_BYTES;
        uint16_t number = snowknoll_id(item, item[SNOWKNOLL_AT_LENGTH] + 4u, ids + 32 * row);
        hold(number == SNOWKNOLL_DONE, "the items are laid");
    }
}

#endif
