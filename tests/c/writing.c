/* Calls the function that writes an item from C, and holds its answers to document 02, request 1: what was written is read
 * back, the bytes after it stay, and each refusal comes in its order and leaves the room as it was. Each field and each room
 * that it lends ends where nobody may touch memory. It says which answer is wrong, and ends with status 1 then. */
#include "lending.h"
#include "snowknoll.h"

/* The fields: the start of each, and how long it is said to be. */
static uint8_t *key, *previous, *payload, *dependencies, *signature;
static size_t key_length = 32, previous_length = 32, payload_length = 5, dependencies_length = 64, signature_length = 64;

/* So many bytes, each of this value, right before memory that nobody may touch. */
static uint8_t *bytes_of(size_t bytes, int value)
{
    return (uint8_t *)memset(room(bytes), value, bytes);
}

/* Writes the fields with a mark into a room. */
static snowknoll_count_answer write_with(uint8_t mark, uint8_t *out, size_t out_length)
{
    return snowknoll_write_item(mark, key, key_length, previous, previous_length, 70000, payload, payload_length,
                                dependencies, dependencies_length, signature, signature_length, out, out_length);
}

/* The fields are refused with this number, and the room stays as it was. */
static void refused(uint8_t mark, size_t room, uint16_t number, const char *what)
{
    uint8_t *out = bytes_of(room, 238), *before = bytes_of(room, 238);
    snowknoll_count_answer answer = write_with(mark, out, room);
    hold(answer.number == number && answer.count == 0, what);
    hold(memcmp(out, before, room) == 0, "a refusal leaves the room");
}

/* What was written is read back, and the bytes after it stay. */
static void try_writing(void)
{
    size_t length = SNOWKNOLL_MIN_ITEM + 5 + 64;
    uint8_t *out = bytes_of(length + 3, 238);
    snowknoll_count_answer answer = write_with(1, out, length + 3);
    hold(answer.number == SNOWKNOLL_DONE && answer.count == length, "an item is written");
    hold(out[length] == 238 && out[length + 1] == 238 && out[length + 2] == 238, "the bytes after it stay");
    snowknoll_item_answer read = snowknoll_layout(out, length);
    hold(read.number == SNOWKNOLL_DONE && read.mark == 1 && read.index == 70000, "mark and index");
    hold(read.size == 5 && memcmp(out + read.payload, payload, 5) == 0, "the payload");
    hold(read.count == 2 && memcmp(out + read.dependencies, dependencies, 64) == 0, "the dependencies");
    hold(memcmp(out + SNOWKNOLL_AT_KEY, key, 32) == 0, "the key");
    hold(memcmp(out + SNOWKNOLL_AT_PREVIOUS, previous, 32) == 0, "the previous id");
    hold(memcmp(out + read.dependencies + 64, signature, 64) == 0, "the signature");
    hold(write_with(0, bytes_of(length, 0), length).count == length, "a room that is just large enough");
}

/* Each refusal, with all that would be refused after it. */
static void try_refusals(void)
{
    size_t length = SNOWKNOLL_MIN_ITEM + 5 + 64, *lengths[] = {&key_length, &previous_length, &signature_length};
    refused(1, length - 1, SNOWKNOLL_ROOM, "a byte of room too few");
    refused(2, length - 1, SNOWKNOLL_FLAG, "a mark of 2");
    refused(102, length, SNOWKNOLL_FLAG, "a mark of 102");
    dependencies_length = 32 * (SNOWKNOLL_MAX_MESSAGE_DEPENDENCIES + 1);
    refused(2, length, SNOWKNOLL_SIZE, "a dependency too many");
    dependencies_length = 64;
    payload_length = SNOWKNOLL_MAX_PAYLOAD + 1;
    refused(2, length, SNOWKNOLL_SIZE, "a byte of payload too many");
    for (size_t k = 0; k < 3; k++) {
        *lengths[k] -= 1;
        refused(2, length, SNOWKNOLL_SHORT, "a field that is too short");
        *lengths[k] += 2;
        refused(2, length, SNOWKNOLL_SHORT, "a field that is too long");
        *lengths[k] -= 1;
    }
    dependencies_length = 63;
    refused(2, length, SNOWKNOLL_SHORT, "a dependency id that is not whole");
    dependencies_length = 64;
    payload_length = 5;
}

/* The largest item; and null pointers for what has no bytes. */
static void try_lengths(void)
{
    uint8_t *out = bytes_of(SNOWKNOLL_MAX_ITEM, 238);
    payload_length = SNOWKNOLL_MAX_PAYLOAD;
    dependencies_length = 32 * SNOWKNOLL_MAX_MESSAGE_DEPENDENCIES;
    payload = bytes_of(payload_length, 3);
    dependencies = bytes_of(dependencies_length, 4);
    hold(write_with(1, out, SNOWKNOLL_MAX_ITEM).count == SNOWKNOLL_MAX_ITEM, "the largest item");
    hold(snowknoll_layout(out, SNOWKNOLL_MAX_ITEM).number == SNOWKNOLL_DONE, "the largest item is sound");
    payload = dependencies = NULL;
    payload_length = dependencies_length = 0;
    hold(write_with(1, out, SNOWKNOLL_MAX_ITEM).count == SNOWKNOLL_MIN_ITEM, "the smallest item");
    refused(1, 0, SNOWKNOLL_ROOM, "no room at all");
    hold(snowknoll_write_item(1, NULL, 0, NULL, 0, 1, NULL, 0, NULL, 0, NULL, 0, NULL, 0).number == SNOWKNOLL_SHORT,
         "nothing at all");
}

int main(void)
{
    key = bytes_of(32, 1);
    previous = bytes_of(32, 2);
    payload = bytes_of(5, 3);
    dependencies = bytes_of(64, 4);
    signature = bytes_of(64, 5);
    try_writing();
    try_refusals();
    try_lengths();
    return failures != 0;
}
