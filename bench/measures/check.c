/* The check of a store, snowknoll_well_formed: beside a set of its ids in plain C; beside itself over half the rows;
 * beside itself without the numbers of branches; beside itself on stores whose ids all fall into one bucket, where it
 * compares every pair of ids by the code that it once had for every store; and the slowest stores that we know beside
 * those. */
#include "../others/id_set.h"
#include "../stores.h"
#include "../turns.h"

#include <string.h>

/* How many rows there are, the counts of them and of half as many, and what the last call said. */
static size_t size;
static snowknoll_counts whole, half;
static int answer;

/* Checks the next store of a set, so much of it. */
static void check_of(int set, snowknoll_counts counts)
{
    const store *s = next_of(set);
    answer = snowknoll_well_formed(STORE_OF(s, counts)) == SNOWKNOLL_DONE;
}

static void check(void)
{
    check_of(BY_CHANCE, whole);
}

static void check_half(void)
{
    check_of(BY_CHANCE, half);
}

static void check_one_bucket(void)
{
    check_of(ONE_BUCKET, whole);
}

static void check_four_buckets(void)
{
    check_of(FOUR_BUCKETS, whole);
}

/* The check of a store whose last id is its first: it is refused when all ids are compared, before the numbers of branches
 * are counted. */
static void check_id_twice(void)
{
    store *s = next_store();
    uint8_t *last = s->ids + SNOWKNOLL_ID_BYTES * (size - 1), kept[SNOWKNOLL_ID_BYTES];
    memcpy(kept, last, sizeof kept);
    memcpy(last, s->ids, sizeof kept);
    answer = snowknoll_well_formed(STORE_OF(s, whole)) == SNOWKNOLL_STORE;
    memcpy(last, kept, sizeof kept);
}

/* The check of a store whose last number is wrong: it is refused when all numbers are counted and compared. */
static void check_wrong_number(void)
{
    store *s = next_store();
    uint16_t *last = s->branches[size_of(size)] + SNOWKNOLL_ROW_BRANCHES + size - 1;
    *last += 1;
    answer = snowknoll_well_formed(STORE_OF(s, whole)) == SNOWKNOLL_STORE;
    *last -= 1;
}

static void set(void)
{
    answer = id_set_distinct(next_store()->ids, size);
}

static void pairs(void)
{
    answer = id_pairs_distinct(next_store()->ids, size);
}

/* Takes so many rows of each store. All must be well formed, and plain C must find their ids distinct. */
static void take(size_t rows)
{
    size = rows;
    whole = counts_of(rows);
    half = counts_of(rows / 2);
    for (int k = 0; k < STORES; k++) {
        check();
        hold(answer, "the stores are well formed");
        check_half();
        hold(answer, "half of each is well formed");
        check_one_bucket();
        hold(answer, "the stores with one bucket are well formed");
        check_four_buckets();
        hold(answer, "the stores with four buckets are well formed");
        set();
        hold(answer, "the ids are distinct");
        check_id_twice();
        hold(answer, "an id twice is refused");
        check_wrong_number();
        hold(answer, "a wrong number is refused");
    }
}

/* Measures the check of so many rows. */
static void measure(size_t rows, const char *work)
{
    take(rows);
    compare(work, check, "a set of its ids", set, STORES);
    compare(work, check, "half the rows", check_half, STORES);
}

/* Gives one store of each set an id twice: the check must refuse that store and no other, or its time says nothing. */
static void repeat_id(void)
{
    for (int set = 0; set < SETS; set++) {
        int refused = 0;
        memcpy(sets[set]->ids + SNOWKNOLL_ID_BYTES * (ROWS - 1), sets[set]->ids, SNOWKNOLL_ID_BYTES);
        for (int k = 0; k < STORES; k++) {
            check_of(set, whole);
            refused += !answer;
        }
        hold(refused == 1, "the store with an id twice is refused");
    }
}

int main(void)
{
    fill_stores();
    measure(128, "check of 128 rows");
    measure(256, "check of 256 rows");
    measure(512, "check of 512 rows");
    measure(1024, "check of 1,024 rows");
    compare_without("check of 1,024 rows", check, "the numbers of branches", check_id_twice, check_wrong_number, STORES);
    compare("check of 1,024 rows", check, "by our old code, every pair", check_one_bucket, 2);
    compare("check of the slowest 1,024 rows", check_four_buckets, "by our old code, every pair", check_one_bucket, 2);
    compare("check of 1,024 rows", check, "every pair in plain C", pairs, 4);
    compare("check of the slowest 1,024 rows", check_four_buckets, "every pair in plain C", pairs, 2);
    repeat_id();
    return 0;
}
