#include <string.h>

#include "operations.h"

/* Operation 12: the payload, where the library says that it lies. */
void call_payload(struct call *call)
{
    struct lent item = take_rest(call, "item");
    if (!ends(call)) return;
    snowknoll_stretch_answer answer = snowknoll_payload(BYTES(item));
    put_word("payload");
    put_number(answer.number);
    put_number(answer.length);
    put_bytes(item.at + answer.start, answer.length);
}

/* Operation 13: the id. A refusal that wrote nothing prints a dash; one that wrote shows what it wrote. */
void call_id(struct call *call)
{
    struct lent item = take_rest(call, "item");
    struct lent id = room_of_bytes(call, "id", SNOWKNOLL_ID_BYTES);
    uint8_t before[SNOWKNOLL_ID_BYTES];
    if (!ends(call)) return;
    memcpy(before, id.at, sizeof before);
    uint16_t number = snowknoll_id(BYTES(item), fixed_of(&id));
    int wrote = number == SNOWKNOLL_DONE || memcmp(before, id.at, sizeof before) != 0;
    put_word("id");
    put_number(number);
    put_bytes(id.at, wrote ? id.count : 0);
}

/* Operation 40: all fields of an item. */
void call_layout(struct call *call)
{
    struct lent item = take_rest(call, "item");
    if (!ends(call)) return;
    snowknoll_item_answer answer = snowknoll_layout(BYTES(item));
    put_word("layout");
    put_number(answer.number);
    put_number(answer.mark);
    put_number(answer.index);
    put_number(answer.payload);
    put_number(answer.size);
    put_number(answer.dependencies);
    put_number(answer.count);
}

/* Operation 16: an item written from its fields. */
void call_write(struct call *call)
{
    size_t space = take_number(call, 4), lengths[5];
    uint8_t mark = (uint8_t)take_number(call, 1);
    uint32_t index = (uint32_t)take_number(call, 4);
    for (size_t i = 0; i < 5; i++) lengths[i] = take_number(call, 4);
    struct lent key = take_bytes(call, "key", lengths[0]);
    struct lent previous = take_bytes(call, "previous", lengths[1]);
    struct lent payload = take_bytes(call, "payload", lengths[2]);
    struct lent dependencies = take_bytes(call, "dependencies", lengths[3]);
    struct lent signature = take_bytes(call, "signature", lengths[4]);
    struct lent room = room_of_bytes(call, "room", space);
    if (!ends(call)) return;
    snowknoll_count_answer answer =
        snowknoll_write_item(mark, BYTES(key), BYTES(previous), index, BYTES(payload), BYTES(dependencies),
                             BYTES(signature), BYTES(room));
    put_word("write");
    put_number(answer.number);
    put_number(answer.count);
    put_sum(&room);
}
