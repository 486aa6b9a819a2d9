/* Two studios that exchange releases and agree, without a server, that an author forked her chain.
 *
 * Ana signs releases 1 and 2, then two different releases 3 on release 2: a fork. North gets one branch and a release
 * 4 on it; South gets the other and Ben's release 2, which depends on it. Each sees a chain that grows. Then each sends
 * its standing: where it stands, by keys and ids. Each lacks what the other's names (answer 22), asks for it, gets what
 * the other packs, and reads the standing in its own row numbers. Both end frozen at Ana's release 2 on the same two
 * evidence messages, though their row numbers and author numbers differ; and each knows whom to ring, by the origins.
 *
 * Build it with your C compiler on x86-64 after bin/library (tests/linking does):
 *   cc -I include examples/two_studios.c target/lib/libsnowknoll.a -o two_studios
 * It ends with status 1 when anything is not as expected. */
#include "snowknoll.h"

#include <stdio.h>
#include <string.h>

/* As many items as one studio of this example keeps. */
#define KEPT_ITEMS 16

/* The bytes of one item, as they travel. */
struct item {
    uint8_t bytes[SNOWKNOLL_MAX_ITEM];
    size_t length;
};

/* What one studio hands to another: items, each after those that it needs. */
struct parcel {
    struct item items[KEPT_ITEMS];
    size_t count;
};

/* One studio: the tables that it lends to the library, its frontier, and the items themselves, by row. */
struct studio {
    const char *name;
    uint8_t keys[SNOWKNOLL_KEYS_LENGTH];
    uint8_t ids[SNOWKNOLL_IDS_LENGTH];
    uint16_t rows[SNOWKNOLL_ROWS_LENGTH];
    uint16_t deps[SNOWKNOLL_DEPS_LENGTH];
    uint16_t branches[SNOWKNOLL_BRANCHES_LENGTH];
    uint8_t origins[SNOWKNOLL_ORIGINS_LENGTH];
    snowknoll_counts counts;
    uint16_t frontier[SNOWKNOLL_FRONTIER_LENGTH];
    size_t used;
    struct item kept[KEPT_ITEMS];
};

/* Where a studio stands, as it is sent: an item of kind 3. */
struct standing {
    uint8_t bytes[SNOWKNOLL_MAX_STANDING];
    size_t length;
};

/* The store of a studio, as most calls take it, and with its origins. */
#define PARTS(s)                                                                                                   \
    (s)->keys, SNOWKNOLL_KEYS_LENGTH, (s)->ids, SNOWKNOLL_IDS_LENGTH, (s)->rows, SNOWKNOLL_ROWS_LENGTH, (s)->deps, \
        SNOWKNOLL_DEPS_LENGTH, (s)->branches, SNOWKNOLL_BRANCHES_LENGTH
#define STORE(s) PARTS(s), (s)->counts
#define STORE_WITH_ORIGINS(s) PARTS(s), (s)->origins, SNOWKNOLL_ORIGINS_LENGTH, (s)->counts

/* Who may hand an item to a studio: its origin. What a number means is the studio's own. */
enum { FROM_THE_AUTHOR = 1, FROM_THE_OTHER_STUDIO = 2 };
static const char *const handed_by[] = {"nobody", "the author", "the other studio"};

/* An author, as people know her. The key is made up. */
struct author {
    const char *name;
    uint8_t key[SNOWKNOLL_KEY_BYTES];
};

static struct author ana = {"Ana", {0xa1, 0x0a}};
static struct author ben = {"Ben", {0xb3, 0x0b}};
static struct studio north = {.name = "North"};
static struct studio south = {.name = "South"};
static struct studio before;
static struct parcel from_north, from_south;
static struct standing of_north, of_south;
static struct item ana1, ana2, ana3_one, ana3_other, ana4, ben1, ben2, damaged;
static int failures;

/* Says what is not as expected, and remembers it. */
static void expect(int holds, const char *what)
{
    if (!holds) {
        printf("NOT AS EXPECTED: %s\n", what);
        failures = failures + 1;
    }
}

/* The id of an item. */
static void id_of(const struct item *item, uint8_t id[SNOWKNOLL_ID_BYTES])
{
    expect(snowknoll_id(item->bytes, item->length, id) == SNOWKNOLL_DONE, "an item has an id");
}

/* Makes a release: on its predecessor, or the first where that is NULL; with one dependency, or none where that is NULL.
 * A real studio checks the signature and then sets the mark; here both are made up. */
static void make_release(struct item *item, const struct author *author, const struct item *previous, uint32_t index,
                         const char *payload, const struct item *dependency)
{
    uint8_t before_it[SNOWKNOLL_ID_BYTES] = {0}, on[SNOWKNOLL_ID_BYTES], signature[SNOWKNOLL_SIGNATURE_BYTES];
    memset(item, 0, sizeof *item);
    memset(signature, author->key[0], sizeof signature);
    if (previous) id_of(previous, before_it);
    if (dependency) id_of(dependency, on);
    snowknoll_count_answer made = snowknoll_write_item(
        1, author->key, sizeof author->key, before_it, sizeof before_it, index, (const uint8_t *)payload, strlen(payload),
        on, dependency ? sizeof on : 0, signature, sizeof signature, item->bytes, sizeof item->bytes);
    expect(made.number == SNOWKNOLL_DONE, "an item is written");
    item->length = made.count;
}

/* Prints the first bytes of an id. */
static void print_id(const uint8_t *id)
{
    printf("%02x%02x%02x%02x", id[0], id[1], id[2], id[3]);
}

/* The id of a row. */
static const uint8_t *id_at(const struct studio *studio, uint16_t row)
{
    return studio->ids + (size_t)SNOWKNOLL_ID_BYTES * (row - 1);
}

/* One item comes in from somebody and is judged. Where it is admitted it is kept; an author's own is appended to its
 * entry, and for all others the other studio's standing is read. */
static uint16_t receive(struct studio *studio, const struct item *item, uint8_t origin)
{
    snowknoll_admit_answer admitted =
        snowknoll_admit(item->bytes, item->length, origin, STORE_WITH_ORIGINS(studio));
    uint8_t id[SNOWKNOLL_ID_BYTES];
    id_of(item, id);
    printf("%s: item ", studio->name);
    print_id(id);
    if (admitted.number == SNOWKNOLL_DONE) {
        printf(" is admitted as row %u\n", admitted.row);
        studio->counts = admitted.counts;
        studio->kept[admitted.row - 1] = *item;
        if (origin == FROM_THE_AUTHOR) {
            snowknoll_count_answer appended = snowknoll_append_entry(
                STORE(studio), studio->frontier, SNOWKNOLL_FRONTIER_LENGTH, studio->used, admitted.row);
            expect(appended.number == SNOWKNOLL_DONE, "an admitted row is appended");
            studio->used = appended.count;
        }
    } else if (admitted.number == SNOWKNOLL_HELD) {
        printf(" is held already, row %u\n", admitted.row);
    } else {
        printf(" is refused, answer %u\n", admitted.number);
    }
    return admitted.number;
}

/* The state that a studio has of an author: the author's entry in its frontier, or five zeros. */
static snowknoll_state state_of(const struct studio *studio, const struct author *author)
{
    snowknoll_state state = {0, 0, 0, 0, 0};
    size_t number = snowknoll_find_key(studio->keys, SNOWKNOLL_KEYS_LENGTH, studio->counts.authors, author->key);
    for (size_t at = 0; at < studio->used; at = at + SNOWKNOLL_ENTRY_NUMBERS)
        if (studio->frontier[at] == number) memcpy(&state, studio->frontier + at, sizeof state);
    return state;
}

/* Prints a row: its id and, in this studio, its number. */
static void print_row(const struct studio *studio, uint16_t row)
{
    print_id(id_at(studio, row));
    printf(" (row %u)", row);
}

/* Prints the state that a studio has of an author, where there is one. */
static void print_state(const struct studio *studio, const struct author *author)
{
    snowknoll_state state = state_of(studio, author);
    if (state.last == 0) return;
    printf("%s: %s (author %u) is %s at release %u, ", studio->name, author->name, state.author,
           state.phase == SNOWKNOLL_FORKED ? "frozen" : "growing",
           studio->rows[SNOWKNOLL_ROW_NUMBERS * (state.last - 1) + 2]);
    print_row(studio, state.last);
    if (state.phase == SNOWKNOLL_FORKED) {
        printf(", on the evidence ");
        print_row(studio, state.low);
        printf(" and ");
        print_row(studio, state.high);
    }
    printf("\n");
}

/* Who handed a row to a studio. */
static uint8_t origin_of(const struct studio *studio, uint16_t row)
{
    snowknoll_origin_answer answer = snowknoll_origin(STORE_WITH_ORIGINS(studio), row);
    expect(answer.number == SNOWKNOLL_DONE, "a row has an origin");
    return answer.origin;
}

/* Prints whom to ring about a frozen author: who handed on each branch. */
static void print_whom_to_ring(const struct studio *studio, const struct author *author)
{
    snowknoll_state state = state_of(studio, author);
    uint8_t low = origin_of(studio, state.low), high = origin_of(studio, state.high);
    printf("%s: row %u came from %s, row %u from %s\n", studio->name, state.low, handed_by[low], state.high,
           handed_by[high]);
    expect(low != high, "the two branches came from two");
}

/* Packs the items that some entries of a studio's frontier stand on. Row numbers stay at home: the parcel has bytes. */
static void pack(const struct studio *studio, const uint16_t *entries, size_t numbers, struct parcel *parcel)
{
    uint16_t list[SNOWKNOLL_LIST_LENGTH];
    snowknoll_count_answer packed =
        snowknoll_packing_list(STORE(studio), entries, numbers, list, SNOWKNOLL_LIST_LENGTH);
    expect(packed.number == SNOWKNOLL_DONE, "a frontier is packed");
    for (size_t i = 0; i < packed.count; i++) parcel->items[i] = studio->kept[list[i] - 1];
    parcel->count = packed.count;
    printf("%s: packs %u items\n", studio->name, (unsigned)packed.count);
}

/* Receives a parcel. Returns how many of its items the studio held already. */
static size_t unpack(struct studio *studio, const struct parcel *parcel)
{
    size_t held = 0;
    for (size_t i = 0; i < parcel->count; i++) {
        uint16_t number = receive(studio, &parcel->items[i], FROM_THE_OTHER_STUDIO);
        expect(number == SNOWKNOLL_DONE || number == SNOWKNOLL_HELD, "an item of a parcel is admitted or held");
        if (number == SNOWKNOLL_HELD) held = held + 1;
    }
    return held;
}

/* Writes where a studio stands. */
static void send_standing(const struct studio *studio, struct standing *standing)
{
    snowknoll_count_answer wrote = snowknoll_write_standing(STORE(studio), studio->frontier, studio->used,
                                                            standing->bytes, sizeof standing->bytes);
    expect(wrote.number == SNOWKNOLL_DONE, "a standing is written");
    standing->length = wrote.count;
    printf("%s: sends its standing, %u bytes\n", studio->name, (unsigned)wrote.count);
}

/* Reads where another studio stands, and joins it to the frontier. Returns the answer of the reading. */
static uint16_t read_standing(struct studio *studio, const struct standing *standing)
{
    uint16_t theirs[SNOWKNOLL_FRONTIER_LENGTH], joined[SNOWKNOLL_FRONTIER_LENGTH];
    snowknoll_count_answer read = snowknoll_read_standing(STORE(studio), standing->bytes, standing->length, theirs,
                                                          SNOWKNOLL_FRONTIER_LENGTH);
    printf("%s: reads the other's standing, answer %u\n", studio->name, read.number);
    if (read.number != SNOWKNOLL_DONE) return read.number;
    snowknoll_count_answer merged = snowknoll_merge_frontiers(
        STORE(studio), studio->frontier, studio->used, theirs, read.count, joined, SNOWKNOLL_FRONTIER_LENGTH);
    expect(merged.number == SNOWKNOLL_DONE, "two frontiers are merged");
    memcpy(studio->frontier, joined, merged.count * sizeof *joined);
    studio->used = merged.count;
    return read.number;
}

/* Whether a row of a studio has this id. */
static int has_id(const struct studio *studio, uint16_t row, const uint8_t *id)
{
    return row != 0 && memcmp(id_at(studio, row), id, SNOWKNOLL_ID_BYTES) == 0;
}

/* Whether a row of one studio and a row of another are both none, or have one id. */
static int same_row(const struct studio *one, uint16_t a, const struct studio *other, uint16_t b)
{
    return b == 0 ? a == 0 : has_id(one, a, id_at(other, b));
}

/* Whether two studios have the same state of an author, by ids. */
static int agree(const struct studio *one, const struct studio *other, const struct author *author)
{
    snowknoll_state a = state_of(one, author), b = state_of(other, author);
    return a.last != 0 && a.phase == b.phase && same_row(one, a.last, other, b.last) &&
           same_row(one, a.low, other, b.low) && same_row(one, a.high, other, b.high);
}

/* Ana is frozen at her release 2, on the two releases 3: the one with the lower id first, whatever its row. */
static void expect_frozen(const struct studio *studio)
{
    snowknoll_state state = state_of(studio, &ana);
    uint8_t last[SNOWKNOLL_ID_BYTES], one[SNOWKNOLL_ID_BYTES], other[SNOWKNOLL_ID_BYTES];
    id_of(&ana2, last);
    id_of(&ana3_one, one);
    id_of(&ana3_other, other);
    const uint8_t *low = memcmp(one, other, SNOWKNOLL_ID_BYTES) < 0 ? one : other;
    const uint8_t *high = low == one ? other : one;
    expect(state.phase == SNOWKNOLL_FORKED && has_id(studio, state.last, last), "Ana is frozen at release 2");
    expect(has_id(studio, state.low, low) && has_id(studio, state.high, high), "the evidence is both releases 3");
}

/* A damaged mark: the first letter of the text "false" is not 0, and is not a yes either. */
static void try_damaged(struct studio *studio, const struct item *item)
{
    damaged = *item;
    damaged.bytes[SNOWKNOLL_AT_MARK] = 'f';
    memcpy(&before, studio, sizeof before);
    expect(receive(studio, &damaged, FROM_THE_AUTHOR) == SNOWKNOLL_FLAG, "a mark of 102 is answered 6");
    int unchanged = memcmp(&before, studio, sizeof before) == 0;
    expect(unchanged, "a refusal changes nothing");
    if (unchanged) printf("%s: its mark is neither 0 nor 1, and nothing changed\n", studio->name);
}

/* What each studio gets first, in an order of its own. */
static void first_days(void)
{
    const struct item *to_north[] = {&ana1, &ana2, &ana3_one}, *to_south[] = {&ben1, &ana1, &ana2, &ana3_other, &ben2};
    for (size_t i = 0; i < 3; i++)
        expect(receive(&north, to_north[i], FROM_THE_AUTHOR) == SNOWKNOLL_DONE, "North admits what it gets");
    try_damaged(&north, &ana4);
    expect(receive(&north, &ana4, FROM_THE_AUTHOR) == SNOWKNOLL_DONE, "North admits the same item with mark 1");
    for (size_t i = 0; i < 5; i++)
        expect(receive(&south, to_south[i], FROM_THE_AUTHOR) == SNOWKNOLL_DONE, "South admits what it gets");
}

/* Prints every state. */
static void print_states(void)
{
    print_state(&north, &ana);
    print_state(&north, &ben);
    print_state(&south, &ana);
    print_state(&south, &ben);
}

int main(void)
{
    make_release(&ana1, &ana, NULL, 1, "gears 1", NULL);
    make_release(&ana2, &ana, &ana1, 2, "gears 2", NULL);
    make_release(&ana3_one, &ana, &ana2, 3, "gears 3, for the north", NULL);
    make_release(&ana3_other, &ana, &ana2, 3, "gears 3, for the south", NULL);
    make_release(&ana4, &ana, &ana3_one, 4, "gears 4", NULL);
    make_release(&ben1, &ben, NULL, 1, "clock 1", NULL);
    make_release(&ben2, &ben, &ben1, 2, "clock 2, with gears 3", &ana3_other);

    first_days();
    print_states();
    expect(state_of(&north, &ana).phase == SNOWKNOLL_GROWING, "North sees no fork yet");
    expect(state_of(&south, &ana).phase == SNOWKNOLL_GROWING, "South sees no fork yet");

    send_standing(&north, &of_north);
    send_standing(&south, &of_south);
    expect(read_standing(&south, &of_north) == SNOWKNOLL_UNKNOWN, "South lacks what North's standing names");
    expect(read_standing(&north, &of_south) == SNOWKNOLL_UNKNOWN, "North lacks what South's standing names");

    /* Each asks the other for what it lacks. North packs all of its frontier; South packs Ben's entry, its first: his dependency leads to Ana's chain. */
    pack(&north, north.frontier, north.used, &from_north);
    pack(&south, south.frontier, SNOWKNOLL_ENTRY_NUMBERS, &from_south);
    expect(from_north.count == north.counts.rows, "North packs all that it holds");
    expect(from_south.count == south.counts.rows, "Ben's entry alone leads to all that South holds");
    expect(unpack(&south, &from_north) == 2, "South held two of North's items");
    expect(unpack(&north, &from_south) == 2, "North held two of South's items");
    expect(read_standing(&south, &of_north) == SNOWKNOLL_DONE, "South reads North's standing");
    expect(read_standing(&north, &of_south) == SNOWKNOLL_DONE, "North reads South's standing");
    print_states();
    print_whom_to_ring(&north, &ana);
    print_whom_to_ring(&south, &ana);

    expect_frozen(&north);
    expect_frozen(&south);
    expect(state_of(&north, &ana).low != state_of(&south, &ana).low, "the rows of the evidence differ");
    expect(agree(&north, &south, &ana) && agree(&north, &south, &ben), "the states are the same");
    printf(failures ? "The studios do NOT agree.\n" : "Both studios agree: other rows, the same releases.\n");
    return failures != 0;
}
