#include "operations.h"

/* Admits the item that is the rest of a call, with an origin. */
static void admit_with(struct call *call, uint8_t origin)
{
    struct lent item = take_rest(call, "item");
    if (!ends(call)) return;
    open_store();
    snowknoll_admit_answer answer = snowknoll_admit(BYTES(item), origin, STORE_WITH_ORIGINS);
    close_store(answer.counts);
    put_row("admit", answer.number, answer.row);
}

/* Operation 1: admits an item with origin 0. */
void call_admit(struct call *call)
{
    admit_with(call, 0);
}

/* Operation 14: admits an item with an origin. */
void call_admit_from(struct call *call)
{
    admit_with(call, (uint8_t)take_number(call, 1));
}

/* Operation 15: the origin of a row. */
void call_origin(struct call *call)
{
    uint16_t row = (uint16_t)take_number(call, 2);
    if (!ends(call)) return;
    snowknoll_origin_answer answer = snowknoll_origin(STORE_WITH_ORIGINS, row);
    put_word("origin");
    put_number(answer.number);
    put_number(answer.origin);
}

/* Operation 2: another store. Nothing is taken over before the whole call is known to be right. */
void call_load(struct call *call)
{
    size_t lengths[PARTS];
    const uint8_t *bytes[PARTS];
    snowknoll_counts given;
    for (size_t i = 0; i < PARTS; i++) {
        lengths[i] = take_number(call, 4);
        if (lengths[i] > most_of(i)) call->bad = 1;
    }
    given.rows = take_number(call, 4);
    given.authors = take_number(call, 4);
    given.deps = take_number(call, 4);
    for (size_t i = 0; i < PARTS; i++) bytes[i] = take(call, lengths[i] * size_of(i));
    if (!ends(call)) return;
    for (size_t i = 0; i < PARTS; i++) replace(i, lengths[i], bytes[i]);
    counts = given;
    put_word("load");
}

/* Operation 3: the counts, and the sum of each part. */
void call_dump(struct call *call)
{
    if (!ends(call)) return;
    put_word("dump");
    put_number(counts.rows);
    put_number(counts.authors);
    put_number(counts.deps);
    for (size_t i = 0; i < PARTS; i++) put_sum(&parts[i]);
}

/* Operation 4: whether the store is well formed. */
void call_check(struct call *call)
{
    if (!ends(call)) return;
    put_word("check");
    put_number(snowknoll_well_formed(STORE));
}

/* Operation 41: the row of an id. */
void call_find_id(struct call *call)
{
    size_t count = take_number(call, 8);
    struct lent id = take_bytes(call, "id", SNOWKNOLL_ID_BYTES);
    if (!ends(call)) return;
    put_word("find-id");
    put_number(snowknoll_find_id(BYTES(parts[IDS]), count, fixed_of(&id)));
}

/* Operation 42: the author of a key. */
void call_find_key(struct call *call)
{
    size_t count = take_number(call, 8);
    struct lent key = take_bytes(call, "key", SNOWKNOLL_KEY_BYTES);
    if (!ends(call)) return;
    put_word("find-key");
    put_number(snowknoll_find_key(BYTES(parts[KEYS]), count, fixed_of(&key)));
}

/* Operation 43: admits the item that lies in an intake. */
void call_admit_at(struct call *call)
{
    uint8_t origin = (uint8_t)take_number(call, 1);
    size_t start = take_number(call, 8), end = take_number(call, 8);
    struct lent intake = take_rest(call, "intake");
    if (!ends(call)) return;
    open_store();
    snowknoll_admit_answer answer = snowknoll_admit_at(BYTES(intake), start, end, origin, STORE_WITH_ORIGINS);
    close_store(answer.counts);
    put_row("admit-at", answer.number, answer.row);
}

/* Operation 46: other counts. */
void call_counts(struct call *call)
{
    snowknoll_counts given;
    given.rows = take_number(call, 8);
    given.authors = take_number(call, 8);
    given.deps = take_number(call, 8);
    if (!ends(call)) return;
    counts = given;
    put_word("counts");
}
