#include "operations.h"

/* Operation 23: salvages a stick into the parts of the store as they stand. A refusal leaves the counts too. */
void call_salvage(struct call *call)
{
    size_t bytes = take_number(call, 4), numbers = take_number(call, 4);
    struct lent clean = room_of_bytes(call, "clean", bytes), list = room_of_numbers(call, "list", numbers);
    struct lent stick = take_rest(call, "stick");
    if (!ends(call)) return;
    open_store();
    snowknoll_salvage_answer answer =
        snowknoll_salvage(BYTES(stick), FIVE_PARTS, BYTES(parts[ORIGINS]), BYTES(clean), NUMBERS(list));
    close_store(answer.number == SNOWKNOLL_DONE ? answer.counts : counts);
    put_word("salvage");
    put_number(answer.number);
    put_number(answer.items);
    put_number(answer.bytes);
    put_sum(&clean);
    put_sum(&list);
}
