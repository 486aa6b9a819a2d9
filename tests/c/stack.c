/* Prints the stack that each call of the header takes, `NAME BYTES`, a line for each call that is made here. A call is
 * made on a stack of its own, which is painted before: what is not painted any more, from the place of the call on, was
 * taken, the return address included. Arguments that lie on the stack are the caller's own. Each call is made under two
 * paints. For x86-64, as the archive is. It says which answer is not as expected, and ends with status 1 then. */
#include "snowknoll.h"

#include <stdio.h>
#include <string.h>

/* A function of any type, for one place to hold them all. */
typedef void any(void);

/* A ladder of two authors who take turns, each row depending on the row before it; from row 1,001 on, rows of the first
 * author that all follow row 1, so that its chain is forked there. `deep` has first messages only, each depending on
 * the row before it: a packing list goes back from row to row by dependencies alone. `walked` has such first
 * messages between two of a third author, on which a fourth one's log of two depends: that the first of these happened before
 * the second is known only by going back through all. `taking` is the ladder again before each call: an admission writes it. */
enum { ROWS = 1023, LADDER = 1000 };
typedef struct {
    uint8_t keys[SNOWKNOLL_KEYS_LENGTH], ids[SNOWKNOLL_IDS_LENGTH];
    uint16_t rows[SNOWKNOLL_ROWS_LENGTH], deps[SNOWKNOLL_DEPS_LENGTH], branches[SNOWKNOLL_BRANCHES_LENGTH];
    uint8_t origins[SNOWKNOLL_ORIGINS_LENGTH];
    snowknoll_counts counts;
} store;
static store forked, deep, walked, taking;
#define PARTS_OF(s)                                                                               \
    (s).keys, sizeof (s).keys, (s).ids, sizeof (s).ids, (s).rows, SNOWKNOLL_ROWS_LENGTH, (s).deps, \
    SNOWKNOLL_DEPS_LENGTH, (s).branches, SNOWKNOLL_BRANCHES_LENGTH
#define WITH_ORIGINS_OF(s) PARTS_OF(s), (s).origins, sizeof (s).origins, (s).counts
#define FORKED PARTS_OF(forked), forked.counts
#define KEPT WITH_ORIGINS_OF(forked)
#define DEEP PARTS_OF(deep), deep.counts
#define WALKED PARTS_OF(walked), walked.counts
#define TAKING WITH_ORIGINS_OF(taking)

/* What the calls are lent. */
static uint8_t item[SNOWKNOLL_MIN_ITEM + SNOWKNOLL_MAX_PAYLOAD + SNOWKNOLL_ID_BYTES], id[SNOWKNOLL_ID_BYTES];
static const snowknoll_state tall = {1, SNOWKNOLL_GROWING, 999, 0, 0}, branch = {1, SNOWKNOLL_GROWING, 1001, 0, 0};
static const snowknoll_state low = {1, SNOWKNOLL_FORKED, 1, 3, 1001}, high = {1, SNOWKNOLL_FORKED, 1, 1001, 1003};
static const uint16_t one[] = {1, 0, 999, 0, 0, 2, 0, 1000, 0, 0}, two[] = {1, 1, 1, 1001, 1003, 2, 0, 500, 0, 0};
static const uint16_t joined[] = {1, 1, 1, 3, 1001, 2, 0, 1000, 0, 0}, last[] = {1, 0, ROWS, 0, 0};
static const snowknoll_state none = {1, SNOWKNOLL_FORKED, 0, 1, 3};
static uint16_t entries[SNOWKNOLL_FRONTIER_LENGTH], out[SNOWKNOLL_LIST_LENGTH];
#define ITEM item, sizeof item
#define ENTRIES entries, SNOWKNOLL_FRONTIER_LENGTH
#define OUT out, SNOWKNOLL_LIST_LENGTH
static uint8_t written[sizeof item];
enum { STANDING = SNOWKNOLL_AT_ENTRIES + 2 * SNOWKNOLL_STANDING_ENTRY_BYTES };
static uint8_t standing[STANDING];
static uint16_t components[SNOWKNOLL_COMPONENTS_LENGTH], owners[SNOWKNOLL_OWNERS_LENGTH];
static uint8_t expanded[SNOWKNOLL_EXPANDED_LENGTH], release[SNOWKNOLL_MIN_ITEM + 3];
#define COLUMNS components, SNOWKNOLL_COMPONENTS_LENGTH, expanded, SNOWKNOLL_EXPANDED_LENGTH
#define ID id, sizeof id
#define PAYLOAD item, SNOWKNOLL_MAX_PAYLOAD
#define SIGNATURE item, SNOWKNOLL_SIGNATURE_BYTES

/* The calls: function, what it is tried on, the part of its answer that is looked at, what that must be, arguments. */
#define CALLS(X)                                                                                    \
    X(layout, release, .number, 0, ITEM)                                                            \
    X(payload, release, .number, 0, ITEM)                                                           \
    X(id, release, , 0, ITEM, id)                                                                   \
    X(id, cut, , SNOWKNOLL_SHORT, item, 144, id)                                                    \
    X(well_formed, ladder, , 0, FORKED)                                                             \
    X(well_formed, first_messages, , 0, DEEP)                                                       \
    X(find_id, last_row, , ROWS, forked.ids, sizeof forked.ids, ROWS, forked.ids + 32 * (ROWS - 1)) \
    X(find_key, last_author, , 2, forked.keys, sizeof forked.keys, 2, forked.keys + 32)             \
    X(admit, release, .number, 0, ITEM, 7, TAKING)                                                  \
    X(admit_at, release, .number, 0, ITEM, 0, sizeof item, 7, TAKING)                               \
    X(take_in, release, .items, 1, ITEM, 7, TAKING, OUT)                                            \
    X(origin, last_row, .number, 0, KEPT, ROWS)                                                     \
    X(prefix, branches, .row, 1, FORKED, 999, 1001)                                                 \
    X(append, forks, .number, 0, FORKED, tall, 1001)                                                \
    X(append, forked, .number, 0, FORKED, high, 3)                                                  \
    X(merge, growing, .number, 0, FORKED, tall, branch)                                             \
    X(merge, forked_growing, .number, 0, FORKED, high, tall)                                        \
    X(merge, both_forked, .number, 0, FORKED, high, low)                                            \
    X(at_or_below, growing, .yes, 1, FORKED, tall, low)                                             \
    X(at_or_below, both_forked, .yes, 1, FORKED, high, low)                                         \
    X(valid_frontier, two_entries, .yes, 1, FORKED, two, 10)                                        \
    X(frontier_at_or_below, two_entries, .yes, 1, FORKED, two, 10, joined, 10)                      \
    X(merge_frontiers, two_entries, .count, 10, FORKED, one, 10, two, 10, OUT)                      \
    X(append_entry, first_entry, .count, 5, FORKED, ENTRIES, 0, 999)                                \
    X(append_entry, next_entry, .count, 10, FORKED, ENTRIES, 5, 1000)                               \
    X(packing_list, ladder, .count, LADDER, FORKED, one, 10, OUT)                                   \
    X(packing_list, first_messages, .count, ROWS, DEEP, last, 5, OUT)                               \
    X(write_standing, two_entries, .count, STANDING, FORKED, joined, 10, standing, STANDING)          \
    X(read_standing, two_entries, .count, 10, FORKED, standing, STANDING, OUT)                      \
    X(steady, ladder, .yes, 1, FORKED)                                                              \
    X(steady, first_messages, .yes, 1, DEEP)                                                        \
    X(steady, walked, .yes, 1, WALKED)                                                              \
    X(backstep, walked, .row, 0, WALKED)                                                            \
    X(admit_catalogue, walked, .number, SNOWKNOLL_SHORT, item, 144, 7, WITH_ORIGINS_OF(walked))     \
    X(backstep, ladder, .number, 0, FORKED)                                                         \
    X(admit_catalogue, release, .number, 0, ITEM, 7, TAKING)                                        \
    X(salvage, release, .items, 1, ITEM, PARTS_OF(taking), taking.origins, sizeof taking.origins, written, sizeof written, OUT) \
    X(desk_admit, release, .number, 0, release, sizeof release, 7, PARTS_OF(taking), taking.origins, sizeof taking.origins, COLUMNS, taking.counts) \
    X(current_release, two_entries, .row, 0, FORKED, joined, 10, COLUMNS, owners, SNOWKNOLL_OWNERS_LENGTH, 512) \
    X(branches, forked, .count, 2 * (ROWS - LADDER + 1), FORKED, low, OUT)                          \
    X(branches, first_messages, .count, ROWS + 1, DEEP, none, OUT)                                  \
    X(write_item, release, .count, sizeof item, 1, ID, ID, 501, PAYLOAD, ID, SIGNATURE, written, sizeof written)

/* The part of an answer that is looked at. */
static size_t answer;

#define CALL(name, on, part, expected, ...) \
    static void call_##name##_##on(any *f) { answer = ((__typeof__(snowknoll_##name) *)f)(__VA_ARGS__) part; }
CALLS(CALL)

/* A call: its function, and what makes it, of that function or of another in its place. */
typedef struct {
    const char *name;
    void (*make)(any *);
    any *function;
    size_t expected;
} call;
#define LISTED(name, on, part, expected, ...) \
    {"snowknoll_" #name, call_##name##_##on, (any *)snowknoll_##name, expected},
static const call calls[] = {CALLS(LISTED)};

/* The painted stack, and where it stood at the last call that was noted. */
static uint8_t painted[1 << 20] __attribute__((aligned(16)));
static uint8_t *place;

/* In place of a function: notes where the stack stands before the call. A frame begins below the return address. */
static void note(void)
{
    place = (uint8_t *)__builtin_frame_address(0) + 16;
}

/* Makes a call of a function on the painted stack. */
static void make_there(const call *c, any *f)
{
    __asm__ volatile("movq %%rsp, %%rbx\n\tmovq %2, %%rsp\n\tcallq *%1\n\tmovq %%rbx, %%rsp"
                     : "+D"(f)
                     : "r"(c->make), "r"(painted + sizeof painted)
                     : "rax", "rbx", "rcx", "rdx", "rsi", "r8", "r9", "r10", "r11", "cc", "memory", "xmm0", "xmm1",
                       "xmm2", "xmm3", "xmm4", "xmm5", "xmm6", "xmm7", "xmm8", "xmm9", "xmm10", "xmm11", "xmm12",
                       "xmm13", "xmm14", "xmm15");
}

/* How much of the stack a call takes under a paint. */
static size_t taken(const call *c, int paint)
{
    uint8_t *lowest = painted;
    make_there(c, note);
    memcpy(&taking, &forked, sizeof taking);
    memset(painted, paint, sizeof painted);
    make_there(c, c->function);
    while (lowest < place && *lowest == (uint8_t)paint) lowest++;
    return (size_t)(place - lowest);
}

/* Fills a store. */
static void fill(store *s, int ladder)
{
    for (uint16_t before = 0; before < ROWS; before++) {
        int high = ladder && before >= LADDER, depends = before > 0 && !high;
        uint16_t *row = s->rows + 4 * before;
        row[0] = high ? 1 : 1 + before % 2;
        row[1] = high ? 1 : ladder && before > 1 ? before - 1 : 0;
        row[2] = high ? 2 : ladder ? 1 + before / 2 : 1;
        row[3] = (uint16_t)depends;
        s->branches[row[1] ? SNOWKNOLL_ROW_BRANCHES + row[1] - 1 : SNOWKNOLL_AUTHOR_BRANCHES + row[0] - 1]++;
        if (depends) s->deps[s->counts.deps++] = before;
        s->ids[32 * before] = (uint8_t)((before + 1) % 256);
        s->ids[32 * before + 1] = (uint8_t)((before + 1) / 256);
    }
    s->keys[0] = 1;
    s->keys[32] = 2;
    s->counts.rows = ROWS;
    s->counts.authors = 2;
}

/* Fills the store that has to be walked through. */
static void fill_walked(void)
{
    store *s = &walked;
    for (uint16_t before = 0; before < ROWS; before++) {
        int third = before == 0 || before == ROWS - 3, fourth = before >= ROWS - 2;
        uint16_t *row = s->rows + 4 * before;
        row[0] = third ? 1 : fourth ? 4 : 3 - before % 2;
        row[1] = before == ROWS - 1 ? ROWS - 1 : 0;
        row[2] = before == ROWS - 1 ? 2 : 1;
        row[3] = before > 0;
        s->branches[row[1] ? SNOWKNOLL_ROW_BRANCHES + row[1] - 1 : SNOWKNOLL_AUTHOR_BRANCHES + row[0] - 1]++;
        if (before > 0) s->deps[s->counts.deps++] = before == ROWS - 2 ? 1 : fourth ? ROWS - 2 : before;
        s->ids[32 * before] = (uint8_t)((before + 1) % 256);
        s->ids[32 * before + 1] = (uint8_t)((before + 1) / 256);
    }
    for (uint8_t author = 0; author < 4; author++) s->keys[32 * author] = 11 + author;
    s->counts.rows = ROWS;
    s->counts.authors = 4;
}

/* Writes a number of two bytes into the item, low byte first. */
static void put_number(size_t at, size_t number)
{
    item[at] = (uint8_t)(number % 256);
    item[at + 1] = (uint8_t)(number / 256);
}

/* Lays the first author's next release, on row 999: the longest payload, and a dependency on row 1,000. */
static void lay_item(void)
{
    size_t count = SNOWKNOLL_AT_PAYLOAD + SNOWKNOLL_MAX_PAYLOAD;
    put_number(SNOWKNOLL_AT_LENGTH, sizeof item - 4);
    put_number(SNOWKNOLL_AT_KIND, SNOWKNOLL_KIND_MESSAGE);
    item[SNOWKNOLL_AT_MARK] = 1;
    item[SNOWKNOLL_AT_KEY] = 1;
    memcpy(item + SNOWKNOLL_AT_PREVIOUS, forked.ids + 32 * 998, 32);
    put_number(SNOWKNOLL_AT_INDEX, 501);
    put_number(SNOWKNOLL_AT_PAYLOAD_LENGTH, SNOWKNOLL_MAX_PAYLOAD);
    put_number(count, 1);
    memcpy(item + count + 2, forked.ids + 32 * 999, 32);
}

/* Lays a release of a new author for the desk, and makes the second author the owner of the last component. */
static void lay_release(void)
{
    release[SNOWKNOLL_AT_LENGTH] = sizeof release - 4;
    release[SNOWKNOLL_AT_KIND] = SNOWKNOLL_KIND_MESSAGE;
    release[SNOWKNOLL_AT_MARK] = 1;
    release[SNOWKNOLL_AT_KEY] = 3;
    release[SNOWKNOLL_AT_INDEX] = 1;
    release[SNOWKNOLL_AT_PAYLOAD_LENGTH] = 3;
    owners[SNOWKNOLL_OWNERS_LENGTH - 1] = 2;
}

int main(void)
{
    int wrong = 0;
    lay_release();
    fill(&forked, 1);
    fill(&deep, 0);
    fill_walked();
    lay_item();
    for (size_t k = 0; k < sizeof calls / sizeof *calls; k++) {
        const call *c = calls + k;
        size_t bytes = taken(c, 0xa5), again = taken(c, 0x5a);
        if (answer != c->expected) printf("wrong: %s gives %zu\n", c->name, answer);
        if (answer != c->expected) wrong = 1;
        printf("%s %zu\n", c->name, bytes > again ? bytes : again);
    }
    return wrong;
}
