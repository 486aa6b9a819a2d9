#include "operations.h"

/* Operation 19: takes in a stretch of items, all with one origin; the numbers and rows of their answers go into a room. */
void call_batch(struct call *call)
{
    uint8_t origin = (uint8_t)take_number(call, 1);
    size_t space = take_number(call, 4);
    struct lent room = room_of_numbers(call, "room", space);
    struct lent stretch = take_rest(call, "stretch");
    if (!ends(call)) return;
    open_store();
    snowknoll_intake_answer answer = snowknoll_take_in(BYTES(stretch), origin, STORE_WITH_ORIGINS, NUMBERS(room));
    close_store(answer.counts);
    put_word("batch");
    put_number(answer.number);
    put_number(answer.items);
    put_sum(&room);
}
