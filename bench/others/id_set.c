/* Whether ids are distinct, as it is written in plain C: by a set, a table of twice as many places as there may be ids,
 * in which an id takes the first free place from the one that its first two bytes name; and by every pair. */
#include "id_set.h"

#include <string.h>

enum { ID_BYTES = 32, PLACES = 2048 };

int id_set_distinct(const uint8_t *ids, size_t count)
{
    uint16_t places[PLACES] = {0};
    for (size_t row = 1; row <= count; row++) {
        const uint8_t *id = ids + ID_BYTES * (row - 1);
        size_t at = (id[0] + 256u * id[1]) % PLACES;
        for (; places[at] != 0; at = (at + 1) % PLACES)
            if (memcmp(ids + ID_BYTES * (places[at] - 1u), id, ID_BYTES) == 0) return 0;
        places[at] = (uint16_t)row;
    }
    return 1;
}

int id_pairs_distinct(const uint8_t *ids, size_t count)
{
    for (size_t row = 0; row < count; row++)
        for (size_t before = 0; before < row; before++)
            if (memcmp(ids + ID_BYTES * before, ids + ID_BYTES * row, ID_BYTES) == 0) return 0;
    return 1;
}
