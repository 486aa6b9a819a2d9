#include "operations.h"

/* Operation 20: whether the store keeps the rule of steady authors. */
void call_steady(struct call *call)
{
    if (!ends(call)) return;
    put_choice("steady", snowknoll_steady(STORE));
}

/* Operation 21: the lowest row that breaks the rule, and the earlier row against which. */
void call_backstep(struct call *call)
{
    if (!ends(call)) return;
    snowknoll_backstep_answer answer = snowknoll_backstep(STORE);
    put_row("backstep", answer.number, answer.row);
    put_number(answer.earlier);
}

/* Operation 22: admits an item to the catalogue, with an origin. */
void call_catalogue(struct call *call)
{
    uint8_t origin = (uint8_t)take_number(call, 1);
    struct lent item = take_rest(call, "item");
    if (!ends(call)) return;
    open_store();
    snowknoll_admit_answer answer = snowknoll_admit_catalogue(BYTES(item), origin, STORE_WITH_ORIGINS);
    close_store(answer.counts);
    put_row("catalogue", answer.number, answer.row);
}
