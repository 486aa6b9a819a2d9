#include "operations.h"

/* Operation 5: the prefix of two rows, and its child toward each. */
void call_prefix(struct call *call)
{
    uint16_t a = (uint16_t)take_number(call, 2), b = (uint16_t)take_number(call, 2);
    if (!ends(call)) return;
    snowknoll_prefix_answer answer = snowknoll_prefix(STORE, a, b);
    put_row("prefix", answer.number, answer.row);
    put_number(answer.first);
    put_number(answer.second);
}

/* Operation 6: a state with one more row. */
void call_append(struct call *call)
{
    snowknoll_state state = take_state(call);
    uint16_t row = (uint16_t)take_number(call, 2);
    if (!ends(call)) return;
    put_state("append", snowknoll_append(STORE, state, row));
}

/* Operation 7: the merge of two states. */
void call_merge(struct call *call)
{
    snowknoll_state first = take_state(call), second = take_state(call);
    if (!ends(call)) return;
    put_state("merge", snowknoll_merge(STORE, first, second));
}

/* Operation 8: whether the first of two states is at or below the second. */
void call_below(struct call *call)
{
    snowknoll_state first = take_state(call), second = take_state(call);
    if (!ends(call)) return;
    put_choice("below", snowknoll_at_or_below(STORE, first, second));
}

/* Operation 24: every branch of a state. */
void call_branches(struct call *call)
{
    struct lent room = room_of_numbers(call, "room", take_number(call, 2));
    snowknoll_state state = take_state(call);
    if (!ends(call)) return;
    put_list("branches", snowknoll_branches(STORE, state, NUMBERS(room)), &room);
}
