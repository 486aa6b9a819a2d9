#include "operations.h"

/* Operation 9: the merge of two frontiers. */
void call_fmerge(struct call *call)
{
    struct lent room = room_of_numbers(call, "room", take_number(call, 2));
    size_t f_count = take_number(call, 2), g_count = take_number(call, 2);
    struct lent f = take_numbers(call, "f", f_count), g = take_numbers(call, "g", g_count);
    if (!ends(call)) return;
    put_list("fmerge", snowknoll_merge_frontiers(STORE, NUMBERS(f), NUMBERS(g), NUMBERS(room)), &room);
}

/* Operation 10: whether the first of two frontiers is at or below the second. */
void call_fbelow(struct call *call)
{
    size_t f_count = take_number(call, 2), g_count = take_number(call, 2);
    struct lent f = take_numbers(call, "f", f_count), g = take_numbers(call, "g", g_count);
    if (!ends(call)) return;
    put_choice("fbelow", snowknoll_frontier_at_or_below(STORE, NUMBERS(f), NUMBERS(g)));
}

/* Operation 11: a packing list. */
void call_pack(struct call *call)
{
    struct lent room = room_of_numbers(call, "room", take_number(call, 2));
    struct lent f = take_numbers(call, "f", take_number(call, 2));
    if (!ends(call)) return;
    put_list("pack", snowknoll_packing_list(STORE, NUMBERS(f), NUMBERS(room)), &room);
}

/* Operation 44: whether a list is a valid frontier. */
void call_fvalid(struct call *call)
{
    struct lent f = take_numbers(call, "f", take_number(call, 2));
    if (!ends(call)) return;
    put_choice("fvalid", snowknoll_valid_frontier(STORE, NUMBERS(f)));
}

/* Operation 45: a row appended to its author's entry, in the list itself. */
void call_fappend(struct call *call)
{
    uint16_t row = (uint16_t)take_number(call, 2);
    size_t used = take_number(call, 8);
    struct lent list = take_list(call, "list", take_number(call, 2));
    if (!ends(call)) return;
    put_list("fappend", snowknoll_append_entry(STORE, NUMBERS(list), used, row), &list);
}

/* Operation 17: the standing of a frontier. */
void call_standing(struct call *call)
{
    struct lent room = room_of_bytes(call, "room", take_number(call, 4));
    struct lent f = take_numbers(call, "f", take_number(call, 2));
    if (!ends(call)) return;
    snowknoll_count_answer answer = snowknoll_write_standing(STORE, NUMBERS(f), BYTES(room));
    put_word("standing");
    put_number(answer.number);
    put_number(answer.count);
    put_sum(&room);
}

/* Operation 18: a standing read into this store's row numbers. */
void call_read(struct call *call)
{
    struct lent room = room_of_numbers(call, "room", take_number(call, 2));
    struct lent item = take_rest(call, "item");
    if (!ends(call)) return;
    put_list("read", snowknoll_read_standing(STORE, BYTES(item), NUMBERS(room)), &room);
}
