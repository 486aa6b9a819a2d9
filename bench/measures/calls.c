/* Calls that check the store first: a merge of two states, a merge of two frontiers of 64 authors, and a packing list
 * of all rows, each beside a set of the store's ids in plain C, which is the least that a check must do, and beside
 * itself over half the rows. Then the admission of items one by one to an empty store, beside the second program's, and
 * beside SHA-256 of each and a set of the ids in plain C. */
#include "../items.h"
#include "../others/id_set.h"
#include "../others/plain_sha256.h"
#include "../others/second.h"
#include "../stores.h"
#include "../turns.h"

#include <string.h>

/* How many rows there are, and whether the last call did all that it was to do. */
static size_t size;
static int done;

/* A call on a store of so many rows: what it is lent. */
typedef struct {
    size_t rows;
    snowknoll_counts counts;
    snowknoll_state first, last;
    uint16_t firsts[SNOWKNOLL_FRONTIER_LENGTH], lasts[SNOWKNOLL_FRONTIER_LENGTH];
} call;
static call whole, half;
static uint16_t out[SNOWKNOLL_LIST_LENGTH];
#define ENTRIES(list) (list), SNOWKNOLL_FRONTIER_LENGTH

/* The state of an author's log at a row. */
static snowknoll_state grown(size_t author, size_t row)
{
    snowknoll_state state = {(uint16_t)author, SNOWKNOLL_GROWING, (uint16_t)row, 0, 0};
    return state;
}

/* Makes the calls over so many rows: of the first and the last row of one author, and of all authors. */
static void make(call *c, size_t rows)
{
    c->rows = rows;
    c->counts = counts_of(rows);
    c->first = grown(1, 1);
    c->last = grown(1, rows + 1 - AUTHORS);
    for (size_t author = 1; author <= AUTHORS; author++) {
        uint16_t *first = c->firsts + SNOWKNOLL_ENTRY_NUMBERS * (author - 1);
        uint16_t *last = c->lasts + SNOWKNOLL_ENTRY_NUMBERS * (author - 1);
        first[0] = last[0] = (uint16_t)author;
        first[2] = (uint16_t)author;
        last[2] = (uint16_t)(rows - AUTHORS + author);
    }
}

static void merge(const call *c)
{
    const store *s = next_store();
    snowknoll_state_answer answer = snowknoll_merge(STORE_OF(s, c->counts), c->first, c->last);
    done = answer.number == SNOWKNOLL_DONE && answer.state.last == c->last.last;
}

static void merge_frontiers(const call *c)
{
    const store *s = next_store();
    snowknoll_count_answer answer = snowknoll_merge_frontiers(
        STORE_OF(s, c->counts), ENTRIES(c->firsts), ENTRIES(c->lasts), ENTRIES(out));
    done = answer.number == SNOWKNOLL_DONE && memcmp(out, c->lasts, sizeof c->lasts) == 0;
}

static void pack(const call *c)
{
    const store *s = next_store();
    snowknoll_count_answer answer = snowknoll_packing_list(
        STORE_OF(s, c->counts), ENTRIES(c->lasts), out, SNOWKNOLL_LIST_LENGTH);
    done = answer.number == SNOWKNOLL_DONE && answer.count == c->rows;
}

/* A store to admit the items to. */
static store empty;

static void admit(const call *c)
{
    snowknoll_counts counts = {0, 0, 0};
    done = 1;
    for (size_t row = 0; row < c->rows; row++) {
        const uint8_t *item = items[row];
        snowknoll_admit_answer answer =
            snowknoll_admit(item, item[SNOWKNOLL_AT_LENGTH] + 4u, 0, PARTS_OF(&empty), empty.branches[0],
                            SNOWKNOLL_BRANCHES_LENGTH, empty.origins, sizeof empty.origins, counts);
        done = done && answer.number == SNOWKNOLL_DONE;
        counts = answer.counts;
    }
}

static void plain_admit(void)
{
    static uint8_t digests[SNOWKNOLL_IDS_LENGTH];
    for (size_t row = 0; row < size; row++) {
        const uint8_t *item = items[row];
        plain_sha256(item + SNOWKNOLL_AT_KEY, item[SNOWKNOLL_AT_LENGTH] + 4u - SNOWKNOLL_AT_KEY, digests + 32 * row);
    }
    done = id_set_distinct(digests, size);
}

static void second_admit(void)
{
    done = second_admits(items[0], ITEM, size) == size;
}

static void plain_set(void)
{
    done = id_set_distinct(next_store()->ids, size);
}

/* The call that is measured, over all and over half the rows. */
static void (*ours)(const call *);

static void ours_whole(void)
{
    ours(&whole);
}

static void ours_half(void)
{
    ours(&half);
}

/* Measures the call beside another, which must do its work too. */
static void measure_other(const char *work, const char *other, void (*theirs)(void), int calls)
{
    theirs();
    hold(done, other);
    compare(work, ours_whole, other, theirs, calls);
}

/* Measures a call over so many rows: beside the other, and beside itself over half the rows. */
static void measure(const char *work, void (*of)(const call *), const char *other, void (*theirs)(void), int calls)
{
    ours = of;
    ours_whole();
    hold(done, work);
    ours_half();
    hold(done, "half the rows");
    measure_other(work, other, theirs, calls);
    compare(work, ours_whole, "half the rows", ours_half, calls);
}

/* Measures every call over so many rows, which are said in words. */
#define MEASURE(rows, words)                                                                               \
    do {                                                                                                   \
        size = rows;                                                                                       \
        make(&whole, rows);                                                                                \
        make(&half, (rows) / 2);                                                                           \
        measure("merge over " words " rows", merge, "a set of its ids", plain_set, STORES);                \
        measure("frontiers over " words " rows", merge_frontiers, "a set of its ids", plain_set, STORES);  \
        measure("packing list of " words " rows", pack, "a set of its ids", plain_set, STORES);            \
        measure("admission of " words " items", admit, "SHA-256 and a set of the ids", plain_admit, 1);    \
        measure_other("admission of " words " items", "the second program", second_admit, 1);              \
    } while (0)

int main(void)
{
    fill_stores();
    lay_items();
    MEASURE(128, "128");
    MEASURE(256, "256");
    MEASURE(512, "512");
    MEASURE(1024, "1,024");
    return 0;
}
