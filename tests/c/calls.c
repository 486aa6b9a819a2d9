/* Calls every function of the header from C but for admissions, which are admission.c's, and holds the answers to
 * document 01: its sample chain, its limits; and lends null pointers for parts with nothing in them. Each table, item,
 * list and id that it lends ends where nobody may touch memory. It says which answer is wrong, and ends with status 1
 * then. */
#include "lending.h"
#include "snowknoll.h"

/* The sample chain: authors A, 1, and B, 2; the first byte of each id; the rows; row 5 depends on row 3. */
static const uint8_t first_bytes[10] = {7, 5, 2, 3, 9, 4, 6, 10, 1, 8};
static const uint16_t four_a_row[] = {1, 0, 1, 0, 1, 1, 2, 0, 1, 2, 3, 0, 1, 2, 3, 0, 2, 0, 1, 1,
                                      1, 4, 4, 0, 1, 1, 2, 0, 2, 5, 2, 0, 1, 2, 3, 0, 1, 0, 1, 0};
static const uint16_t on_three[] = {3};
static uint8_t *keys, *ids;
static uint16_t *rows, *deps, *branches, *branches_of_four;
static const snowknoll_counts counts = {10, 2, 1};
#define CHAIN keys, 64, ids, 320, rows, 40, deps, 1, branches, 74, counts

/* A part with nothing in it; a store of five such parts; the chain's first four rows, which have no dependencies. */
static const snowknoll_counts none = {0, 0, 0}, four = {4, 1, 0};
#define NOTHING NULL, 0
#define EMPTY NOTHING, NOTHING, NOTHING, NOTHING, NOTHING, none
#define FOUR keys, 32, ids, 128, rows, 16, NOTHING, branches_of_four, 68, four

/* States of A: growing at a row; forked at a row, with two evidence rows. */
#define G(last) {1, SNOWKNOLL_GROWING, last, 0, 0}
#define F(last, low, high) {1, SNOWKNOLL_FORKED, last, low, high}
static const snowknoll_state of_b = {2, SNOWKNOLL_GROWING, 8, 0, 0};

static uint8_t item[2 * SNOWKNOLL_MAX_ITEM];

/* A copy of an array of numbers where nobody may read on, and of the item at hand as the calls take it. */
#define LEND(numbers) ((uint16_t *)(void *)lend(numbers, sizeof(numbers)))
#define ITEM(length) lend(item, length), length

/* Whether two states are the same five numbers. */
static int same_state(snowknoll_state a, snowknoll_state b)
{
    return a.author == b.author && a.phase == b.phase && a.last == b.last && a.low == b.low && a.high == b.high;
}

/* Counts the branches of the chain's first rows, in room for no more. */
static uint16_t *count_branches(size_t of)
{
    uint16_t *numbers = (uint16_t *)room(2 * (SNOWKNOLL_ROW_BRANCHES + of));
    for (const uint16_t *row = four_a_row; row < four_a_row + 4 * of; row += 4)
        numbers[row[1] ? SNOWKNOLL_ROW_BRANCHES + row[1] - 1 : SNOWKNOLL_AUTHOR_BRANCHES + row[0] - 1]++;
    return numbers;
}

/* Lends the sample chain. */
static void lend_chain(void)
{
    keys = (uint8_t *)room(64);
    ids = (uint8_t *)room(320);
    rows = LEND(four_a_row);
    deps = LEND(on_three);
    branches = count_branches(10);
    branches_of_four = count_branches(4);
    keys[0] = 1;
    keys[SNOWKNOLL_KEY_BYTES] = 2;
    for (size_t row = 0; row < 10; row++) ids[SNOWKNOLL_ID_BYTES * row] = first_bytes[row];
}

/* The store's own calls. */
static void try_tables(void)
{
    snowknoll_counts fewer = {10, 2, 0};
    const uint8_t *ninth = lend(ids + 8 * SNOWKNOLL_ID_BYTES, SNOWKNOLL_ID_BYTES);
    hold(snowknoll_well_formed(CHAIN) == SNOWKNOLL_DONE, "the sample chain is well formed");
    hold(snowknoll_well_formed(keys, 64, ids, 320, rows, 40, deps, 1, branches, 74, fewer) == SNOWKNOLL_STORE,
         "a store with a dependency too many");
    hold(snowknoll_find_id(ids, 320, 10, ninth) == 9, "the row of an id");
    hold(snowknoll_find_id(ids, 320, 8, ninth) == 0, "no row past the count");
    hold(snowknoll_find_id(ids, 319, 11, ids + 9 * SNOWKNOLL_ID_BYTES) == 0, "no row that is not whole");
    hold(snowknoll_find_key(keys, 64, 2, keys + SNOWKNOLL_KEY_BYTES) == 2, "the author of a key");
    hold(snowknoll_find_key(keys, 64, 2, ids) == 0, "no author of another key");
}

/* The lines of the sample chain on states. */
static void try_states(void)
{
    static const snowknoll_state merges[][3] = {
        {G(3), G(4), F(2, 3, 4)},
        {F(2, 3, 4), G(9), F(2, 9, 3)},
        {G(6), F(2, 9, 3), F(2, 9, 3)},
        {G(7), F(2, 3, 4), F(1, 2, 7)},
        {G(10), G(1), F(0, 1, 10)},
        {G(0), G(3), G(3)},
        {G(2), F(2, 3, 4), F(2, 3, 4)},
        {F(1, 2, 7), F(2, 9, 4), F(1, 2, 7)},
        {F(2, 3, 4), F(2, 9, 4), F(2, 9, 3)},
    };
    static const snowknoll_state wrong[] = {F(2, 4, 3), F(2, 3, 3), F(1, 3, 4), {1, 0, 3, 1, 0}, {1, 2, 3, 0, 0}};
    const snowknoll_state fork = F(2, 3, 4), later = F(2, 9, 3), seven = G(7);
    for (size_t k = 0; k < 9; k++) {
        snowknoll_state_answer merged = snowknoll_merge(CHAIN, merges[k][0], merges[k][1]);
        hold(merged.number == SNOWKNOLL_DONE && same_state(merged.state, merges[k][2]), "a merge of the sample chain");
    }
    for (size_t k = 0; k < 5; k++)
        hold(snowknoll_merge(CHAIN, fork, wrong[k]).number == SNOWKNOLL_STATE, "a state that is none");
    hold(snowknoll_merge(CHAIN, fork, of_b).number == SNOWKNOLL_PAIR, "states of two authors");
    snowknoll_state_answer appended = snowknoll_append(CHAIN, fork, 9);
    hold(appended.number == SNOWKNOLL_DONE && same_state(appended.state, later), "an append");
    hold(snowknoll_append(CHAIN, fork, 8).number == SNOWKNOLL_ROW, "an append of another author's row");
    hold(snowknoll_at_or_below(CHAIN, seven, fork).yes == 0, "growing at 7 is not at or below");
    hold(snowknoll_at_or_below(CHAIN, fork, later).yes == 1, "a fork at or below the one with a lower id");
    hold(snowknoll_at_or_below(CHAIN, later, fork).yes == 0, "not the reverse");
    snowknoll_prefix_answer met = snowknoll_prefix(CHAIN, 3, 6), apart = snowknoll_prefix(CHAIN, 10, 3);
    hold(met.row == 2 && met.first == 3 && met.second == 4, "the prefix of two branches");
    hold(apart.number == SNOWKNOLL_DONE && apart.row == 0, "a prefix that is none");
    hold(apart.first == 10 && apart.second == 1, "the first message of each side");
    met = snowknoll_prefix(CHAIN, 6, 2);
    hold(met.row == 2 && met.first == 4 && met.second == 0, "a side that stands at the prefix itself");
    hold(snowknoll_prefix(CHAIN, 3, 5).number == SNOWKNOLL_ROW, "a prefix over two authors");
}

/* Frontiers, and packing lists. */
static void try_frontiers(void)
{
    static const uint16_t of_a[] = {1, 0, 3, 0, 0}, of_both[] = {1, 0, 4, 0, 0, 2, 0, 8, 0, 0};
    static const uint16_t merged[] = {1, 1, 2, 3, 4, 2, 0, 8, 0, 0}, turned[] = {2, 0, 8, 0, 0, 1, 0, 4, 0, 0};
    static const uint16_t with_evidence[] = {1, 2, 3, 4, 77};
    static const uint16_t list[] = {1, 2, 3, 5, 8, 77}, appended[] = {1, 0, 4, 0, 0, 2, 0, 8, 0, 0, 77};
    static const uint16_t marked[11] = {77, 77, 77, 77, 77, 77, 77, 77, 77, 77, 77};
    static const uint16_t five[11] = {2, 0, 5, 0, 0, 77, 77, 77, 77, 77, 77};
    const uint16_t *three = LEND(of_a), *both = LEND(of_both);
    uint16_t *out = LEND(marked), *kept = LEND(five);
    hold(snowknoll_valid_frontier(CHAIN, both, 10).yes == 1, "a valid frontier");
    hold(snowknoll_valid_frontier(CHAIN, LEND(turned), 10).yes == 0, "authors that do not rise");
    hold(snowknoll_frontier_at_or_below(CHAIN, three, 5, LEND(merged), 10).yes == 1, "a frontier at or below the merge");
    hold(snowknoll_frontier_at_or_below(CHAIN, LEND(merged), 10, three, 5).yes == 0, "the merge above a frontier");
    hold(snowknoll_merge_frontiers(CHAIN, three, 5, both, 10, out, 9).number == SNOWKNOLL_ROOM, "no room");
    hold(out[0] == 77, "a refusal writes nothing");
    hold(snowknoll_merge_frontiers(CHAIN, three, 5, both, 10, out, 11).count == 10, "a merged frontier");
    hold(memcmp(out, merged, sizeof merged) == 0 && out[10] == 77, "its numbers, and the room beyond");
    hold(snowknoll_packing_list(CHAIN, both + 5, 5, out + 5, 6).count == 5, "a packing list");
    hold(memcmp(out + 5, list, sizeof list) == 0, "its rows, and the room beyond");
    hold(snowknoll_packing_list(CHAIN, LEND(merged), 5, out + 6, 5).count == 4, "a packing list with evidence");
    hold(memcmp(out + 6, with_evidence, sizeof with_evidence) == 0, "both evidence rows, and the room beyond");
    hold(snowknoll_append_entry(CHAIN, kept, 11, 5, 11).number == SNOWKNOLL_ROW, "a row that is none");
    hold(snowknoll_append_entry(CHAIN, kept, 11, 5, 8).count == 5, "a row appended");
    hold(snowknoll_append_entry(CHAIN, kept, 11, 5, 4).count == 10, "a new entry");
    hold(memcmp(kept, appended, sizeof appended) == 0, "the entries, and the room beyond");
}

/* Every branch of a forked state. */
static void try_branches(void)
{
    static const snowknoll_state fork = F(2, 3, 4), at_none = F(0, 1, 10), turned = F(2, 4, 3), growing = G(6);
    static const uint16_t three[7] = {9, 9, 3, 3, 6, 4, 77}, five[10] = {9, 1, 3, 1, 6, 1, 7, 1, 10, 10};
    static const uint16_t marked[10] = {77, 77, 77, 77, 77, 77, 77, 77, 77, 77};
    uint16_t *out = LEND(marked);
    hold(snowknoll_branches(CHAIN, growing, out, 10).number == SNOWKNOLL_WHOLE, "a log that is whole");
    hold(snowknoll_branches(CHAIN, turned, out, 10).number == SNOWKNOLL_STATE, "branches of what is no state");
    hold(snowknoll_branches(CHAIN, at_none, out, 9).number == SNOWKNOLL_ROOM, "no room for the branches");
    hold(snowknoll_branches(CHAIN, fork, NOTHING).number == SNOWKNOLL_ROOM, "branches into nothing");
    hold(memcmp(out, marked, sizeof marked) == 0, "a refusal writes no branch");
    hold(snowknoll_branches(CHAIN, fork, out + 3, 7).count == 6, "the branches behind a row");
    hold(memcmp(out + 3, three, sizeof three) == 0, "tips by rising id with their children, and the room beyond");
    hold(snowknoll_branches(CHAIN, at_none, out, 10).count == 10, "the branches behind none");
    hold(memcmp(out, five, sizeof five) == 0, "every tip of the author");
    hold(snowknoll_branches(EMPTY, fork, NOTHING).number == SNOWKNOLL_STATE, "branches in an empty store");
}

/* Writes a number of some bytes, low byte first. */
static void put_number(size_t at, size_t bytes, size_t number)
{
    for (size_t i = 0; i < bytes; i++) item[at + i] = (uint8_t)(number >> (8 * i));
}

/* Lays an item with a payload and dependencies of zeros. Returns how many bytes it has. */
static size_t lay(size_t size, size_t count)
{
    size_t length = SNOWKNOLL_AT_PAYLOAD + size + 2 + SNOWKNOLL_ID_BYTES * count + SNOWKNOLL_SIGNATURE_BYTES;
    memset(item, 0, sizeof item);
    put_number(SNOWKNOLL_AT_LENGTH, 4, length - 4);
    put_number(SNOWKNOLL_AT_KIND, 2, SNOWKNOLL_KIND_MESSAGE);
    item[SNOWKNOLL_AT_MARK] = 102;
    put_number(SNOWKNOLL_AT_INDEX, 4, 70000);
    put_number(SNOWKNOLL_AT_PAYLOAD_LENGTH, 4, size);
    put_number(SNOWKNOLL_AT_PAYLOAD + size, 2, count);
    return length;
}

/* The limits of an item: what just keeps them, and one more; and no item at all. */
static void try_limits(void)
{
    hold(lay(0, 0) == SNOWKNOLL_MIN_ITEM, "the smallest item");
    hold(snowknoll_layout(ITEM(SNOWKNOLL_MIN_ITEM)).number == SNOWKNOLL_DONE, "the smallest item is sound");
    hold(snowknoll_layout(ITEM(SNOWKNOLL_MIN_ITEM - 1)).number == SNOWKNOLL_SHORT, "a byte less is not");
    hold(snowknoll_layout(ITEM(SNOWKNOLL_MIN_ITEM + 1)).number == SNOWKNOLL_LONG, "a byte more is not");
    size_t length = lay(SNOWKNOLL_MAX_PAYLOAD, SNOWKNOLL_MAX_MESSAGE_DEPENDENCIES);
    hold(length == SNOWKNOLL_MAX_ITEM && length - 4 == SNOWKNOLL_MAX_LENGTH, "the largest item");
    snowknoll_item_answer read = snowknoll_layout(ITEM(length));
    hold(read.number == SNOWKNOLL_DONE && read.mark == 102 && read.index == 70000, "mark and index");
    hold(read.payload == SNOWKNOLL_AT_PAYLOAD && read.size == SNOWKNOLL_MAX_PAYLOAD, "the payload's place and size");
    hold(read.dependencies == length - 64 - 32 * 63 && read.count == 63, "the dependencies' place and count");
    snowknoll_stretch_answer payload = snowknoll_payload(ITEM(length));
    hold(payload.start == SNOWKNOLL_AT_PAYLOAD && payload.length == SNOWKNOLL_MAX_PAYLOAD, "the payload's stretch");
    length = lay(SNOWKNOLL_MAX_PAYLOAD + 1, 0);
    hold(snowknoll_layout(ITEM(length)).number == SNOWKNOLL_SIZE, "a byte of payload more");
    length = lay(0, SNOWKNOLL_MAX_MESSAGE_DEPENDENCIES + 1);
    hold(snowknoll_payload(ITEM(length)).number == SNOWKNOLL_SIZE, "a dependency more");
    put_number(SNOWKNOLL_AT_LENGTH, 4, SNOWKNOLL_MAX_LENGTH + 1);
    hold(snowknoll_layout(ITEM(4)).number == SNOWKNOLL_SIZE, "a length above the limit");
    put_number(SNOWKNOLL_AT_LENGTH, 4, SNOWKNOLL_MAX_LENGTH);
    hold(snowknoll_layout(ITEM(4)).number == SNOWKNOLL_SHORT, "a length at the limit");
    hold(snowknoll_layout(NOTHING).number == SNOWKNOLL_SHORT, "the fields of no item");
    hold(snowknoll_payload(NOTHING).number == SNOWKNOLL_SHORT, "the payload of no item");
}

/* Null pointers for tables: for all of an empty store, for each part that the chain needs, for no dependencies. */
static void try_no_tables(void)
{
    const snowknoll_state start = G(0), three = G(3), fork = F(2, 3, 4);
    hold(snowknoll_well_formed(EMPTY) == SNOWKNOLL_DONE, "an empty store of nothing");
    hold(snowknoll_well_formed(NOTHING, ids, 320, rows, 40, deps, 1, branches, 74, counts) == SNOWKNOLL_STORE,
         "no keys");
    hold(snowknoll_well_formed(keys, 64, NOTHING, rows, 40, deps, 1, branches, 74, counts) == SNOWKNOLL_STORE, "no ids");
    hold(snowknoll_well_formed(keys, 64, ids, 320, NOTHING, deps, 1, branches, 74, counts) == SNOWKNOLL_STORE,
         "no rows");
    hold(snowknoll_well_formed(keys, 64, ids, 320, rows, 40, NOTHING, branches, 74, counts) == SNOWKNOLL_STORE,
         "no dependencies");
    hold(snowknoll_well_formed(keys, 64, ids, 320, rows, 40, deps, 1, NOTHING, counts) == SNOWKNOLL_STORE,
         "no branches");
    hold(snowknoll_find_id(NOTHING, 10, ids) == 0 && snowknoll_find_key(NOTHING, 10, keys) == 0, "found in nothing");
    snowknoll_prefix_answer met = snowknoll_prefix(EMPTY, 0, 0);
    hold(met.number == SNOWKNOLL_DONE && met.first == 0 && met.second == 0, "the prefix of none and none, in nothing");
    hold(snowknoll_append(EMPTY, start, 1).number == SNOWKNOLL_STATE, "an append in nothing");
    hold(snowknoll_merge(EMPTY, start, start).number == SNOWKNOLL_STATE, "a merge in nothing");
    hold(snowknoll_at_or_below(EMPTY, start, start).number == SNOWKNOLL_STATE, "an order in nothing");
    hold(snowknoll_prefix(FOUR, 3, 4).row == 2, "a prefix with no dependencies");
    hold(same_state(snowknoll_append(FOUR, three, 4).state, fork), "an append with no dependencies");
    hold(same_state(snowknoll_merge(FOUR, three, fork).state, fork), "a merge with no dependencies");
    hold(snowknoll_at_or_below(FOUR, three, fork).yes == 1, "an order with no dependencies");
}

/* Null pointers for frontiers and for what is written. */
static void try_no_lists(void)
{
    static const uint16_t of_both[] = {1, 0, 4, 0, 0, 2, 0, 8, 0, 0};
    const uint16_t *both = LEND(of_both);
    uint16_t *out = (uint16_t *)room(sizeof of_both);
    hold(snowknoll_valid_frontier(EMPTY, NOTHING).yes == 1, "none is a valid frontier");
    hold(snowknoll_frontier_at_or_below(EMPTY, NOTHING, NOTHING).yes == 1, "none is at or below none");
    hold(snowknoll_frontier_at_or_below(CHAIN, NOTHING, both, 10).yes == 1, "none is at or below all");
    hold(snowknoll_frontier_at_or_below(CHAIN, both, 10, NOTHING).yes == 0, "nothing else is at or below none");
    hold(snowknoll_merge_frontiers(EMPTY, NOTHING, NOTHING, NOTHING).number == SNOWKNOLL_DONE, "none merged with none");
    hold(snowknoll_merge_frontiers(CHAIN, both, 10, NOTHING, NOTHING).number == SNOWKNOLL_ROOM, "merged into nothing");
    hold(snowknoll_merge_frontiers(CHAIN, NOTHING, both, 10, out, 10).count == 10, "none merged with a frontier");
    hold(snowknoll_merge_frontiers(CHAIN, both, 10, NOTHING, out, 10).count == 10, "a frontier merged with none");
    hold(snowknoll_append_entry(EMPTY, NOTHING, 0, 1).number == SNOWKNOLL_ROW, "a row appended in nothing");
    hold(snowknoll_append_entry(CHAIN, NOTHING, 0, 1).number == SNOWKNOLL_ROOM, "a row appended to nothing");
    hold(snowknoll_packing_list(EMPTY, NOTHING, NOTHING).number == SNOWKNOLL_DONE, "nothing packed");
    hold(snowknoll_packing_list(CHAIN, both, 10, NOTHING).number == SNOWKNOLL_ROOM, "packed into nothing");
}

int main(void)
{
    lend_chain();
    try_tables();
    try_states();
    try_frontiers();
    try_branches();
    try_limits();
    try_no_tables();
    try_no_lists();
    return failures != 0;
}
