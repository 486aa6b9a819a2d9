/* Forty studios over one store, which meet in no fixed order: a picture of the theorem studios-show of the crate meetings.
 * Random meetings are held until every start has been carried to every studio, and no longer. At the end of each round it
 * looks whether each studio shows the merge of exactly the starts carried to it, merged here in a random order and
 * grouping, and prints a line. All studios must show the same where all has been carried, and not before: each start has
 * an author of its own, whom no other start has. Ends with 1 where something is wrong. tests/meetings builds and runs it. */
#include "snowknoll.h"
#include <stdio.h>
#include <string.h>

#define SEED 1
#define STUDIOS 40
#define ROUND 40        /* meetings in a round */
#define MOST_ROUNDS 100 /* many more than it takes */
#define SHARED 4        /* authors whom every studio knows, each perhaps at another release */
#define RELEASES 12     /* releases of each of these, on earlier ones at random: most authors are forked */
#define AUTHORS (STUDIOS + SHARED)
#define ROWS (STUDIOS + SHARED * RELEASES)
#define ROOM (AUTHORS * SNOWKNOLL_ENTRY_NUMBERS) /* five numbers an author: no merge is refused for want of room */

/* A frontier, and how many numbers it has. */
struct frontier {
    uint16_t numbers[ROOM];
    size_t used;
};

static uint8_t keys[AUTHORS * SNOWKNOLL_KEY_BYTES], ids[ROWS * SNOWKNOLL_ID_BYTES], origins[ROWS];
static uint16_t rows[ROWS * SNOWKNOLL_ROW_NUMBERS], deps[1], branches[SNOWKNOLL_ROW_BRANCHES + ROWS];
static snowknoll_counts counts;
static struct frontier starts[STUDIOS], shown[STUDIOS];
static uint8_t carried[STUDIOS][STUDIOS]; /* [i][k]: the start of k has been carried to i */
static uint64_t random_state = SEED;
static int failures;

/* The store, as the calls take it: the admission with the origins too. */
#define PARTS                                                                          \
    keys, sizeof keys, ids, sizeof ids, rows, ROWS * SNOWKNOLL_ROW_NUMBERS, deps, 1, \
    branches, SNOWKNOLL_ROW_BRANCHES + ROWS
#define STORE PARTS, counts
#define STORE_WITH_ORIGINS PARTS, origins, ROWS, counts

/* Says what is wrong, and remembers it. */
static void expect(int holds, const char *what, size_t number)
{
    if (holds) return;
    printf("wrong: %s (%zu)\n", what, number);
    failures = failures + 1;
}

/* A random number below a bound (splitmix64): one seed gives one run, on every machine. */
static size_t below(size_t bound)
{
    random_state += 0x9e3779b97f4a7c15u;
    uint64_t mixed = (random_state ^ (random_state >> 30)) * 0xbf58476d1ce4e5b9u;
    mixed = (mixed ^ (mixed >> 27)) * 0x94d049bb133111ebu;
    return (size_t)((mixed ^ (mixed >> 31)) % bound);
}

/* Admits a release of an author on one of its rows, or a first one on 0, and gives its row. Signatures tell releases on
 * one row apart. */
static uint16_t admit(size_t author, uint16_t previous)
{
    uint8_t item[SNOWKNOLL_MIN_ITEM] = {0};
    item[SNOWKNOLL_AT_LENGTH] = SNOWKNOLL_MIN_ITEM - 4;
    item[SNOWKNOLL_AT_KIND] = SNOWKNOLL_KIND_MESSAGE;
    item[SNOWKNOLL_AT_MARK] = 1;
    item[SNOWKNOLL_AT_KEY] = (uint8_t)author;
    item[SNOWKNOLL_AT_INDEX] = 1;
    if (previous != 0) {
        memcpy(item + SNOWKNOLL_AT_PREVIOUS, ids + SNOWKNOLL_ID_BYTES * (previous - 1), SNOWKNOLL_ID_BYTES);
        item[SNOWKNOLL_AT_INDEX] = (uint8_t)(rows[SNOWKNOLL_ROW_NUMBERS * (previous - 1) + 2] + 1);
    }
    item[SNOWKNOLL_MIN_ITEM - 1] = (uint8_t)counts.rows;
    snowknoll_admit_answer in = snowknoll_admit(item, sizeof item, 0, STORE_WITH_ORIGINS);
    expect(in.number == SNOWKNOLL_DONE, "a release is admitted", in.number);
    counts = in.counts;
    return in.row;
}

/* Appends a row to a studio's start. */
static void append(struct frontier *to, uint16_t row)
{
    snowknoll_count_answer answer = snowknoll_append_entry(STORE, to->numbers, ROOM, to->used, row);
    expect(answer.number == SNOWKNOLL_DONE, "a row is appended", answer.number);
    to->used = answer.count;
}

/* Fills the store and the starts: an author of its own for each studio, and of each shared author a random release. */
static void start(void)
{
    for (size_t i = 0; i < STUDIOS; i++) append(&starts[i], admit(i + 1, 0));
    for (size_t author = STUDIOS + 1; author <= AUTHORS; author++) {
        uint16_t of_author[RELEASES];
        for (size_t r = 0; r < RELEASES; r++) of_author[r] = admit(author, r == 0 ? 0 : of_author[below(r)]);
        for (size_t i = 0; i < STUDIOS; i++) append(&starts[i], of_author[below(RELEASES)]);
    }
    memcpy(shown, starts, sizeof shown);
    for (size_t i = 0; i < STUDIOS; i++) carried[i][i] = 1;
}

/* The merge of two frontiers. */
static struct frontier merge(const struct frontier *f, const struct frontier *g)
{
    struct frontier merged = {{0}, 0};
    snowknoll_count_answer answer =
        snowknoll_merge_frontiers(STORE, f->numbers, f->used, g->numbers, g->used, merged.numbers, ROOM);
    expect(answer.number == SNOWKNOLL_DONE, "a merge is done", answer.number);
    merged.used = answer.count;
    return merged;
}

/* Two studios meet: the frontier of the one is replaced by its merge with the other's present one. */
static void meet(size_t one, size_t other)
{
    shown[one] = merge(&shown[one], &shown[other]);
}

/* What a meeting carries to the one: all that has been carried to the other. */
static void carry(size_t one, size_t other)
{
    for (size_t k = 0; k < STUDIOS; k++) carried[one][k] |= carried[other][k];
}

/* A meeting of two studios at random. */
static void meet_at_random(void)
{
    size_t one = below(STUDIOS), other = (one + 1 + below(STUDIOS - 1)) % STUDIOS;
    meet(one, other);
    carry(one, other);
}

/* How many starts have been carried, of all studios together. */
static size_t starts_carried(void)
{
    size_t sum = 0;
    for (size_t i = 0; i < STUDIOS; i++)
        for (size_t k = 0; k < STUDIOS; k++) sum += carried[i][k];
    return sum;
}

/* Whether two frontiers are the same, number for number. */
static int same(const struct frontier *f, const struct frontier *g)
{
    return f->used == g->used && memcmp(f->numbers, g->numbers, f->used * sizeof f->numbers[0]) == 0;
}

/* How many different frontiers are shown. */
static size_t different(void)
{
    size_t sum = 0;
    for (size_t i = 0; i < STUDIOS; i++) {
        size_t k = 0;
        while (!same(&shown[i], &shown[k])) k++;
        sum += k == i;
    }
    return sum;
}

/* The merge of the starts that have been carried to a studio: two of them at a time, at random, until one is left. */
static struct frontier merge_of_carried(size_t studio)
{
    struct frontier left[STUDIOS];
    size_t count = 0;
    for (size_t k = 0; k < STUDIOS; k++)
        if (carried[studio][k]) left[count++] = starts[k];
    while (count > 1) {
        size_t f = below(count), g = (f + 1 + below(count - 1)) % count;
        left[f] = merge(&left[f], &left[g]);
        left[g] = left[--count];
    }
    return left[0];
}

/* Looks at every studio, and prints how far the meetings are. */
static void look(size_t round, size_t meetings)
{
    size_t all = starts_carried(), kinds = different();
    for (size_t i = 0; i < STUDIOS; i++) {
        struct frontier expected = merge_of_carried(i);
        expect(same(&shown[i], &expected), "a studio shows the merge of the starts carried to it", i + 1);
    }
    expect((kinds == 1) == (all == STUDIOS * STUDIOS), "all show the same exactly where all has been carried", kinds);
    printf("round %zu: meetings %zu, starts carried %zu of %d, different frontiers %zu\n", round, meetings, all,
           STUDIOS * STUDIOS, kinds);
}

/* How many entries of a frontier are forked. */
static size_t forked(const struct frontier *f)
{
    size_t sum = 0;
    for (size_t at = 0; at < f->used; at += SNOWKNOLL_ENTRY_NUMBERS) sum += f->numbers[at + 1] == SNOWKNOLL_FORKED;
    return sum;
}

int main(void)
{
    size_t meetings = 0, round = 0;
    start();
    look(round, meetings);
    while (starts_carried() < STUDIOS * STUDIOS && round < MOST_ROUNDS) {
        round = round + 1;
        for (size_t i = 0; i < ROUND && starts_carried() < STUDIOS * STUDIOS; i++) {
            expect(different() > 1, "not all show the same before all has been carried", meetings);
            meet_at_random();
            meetings = meetings + 1;
        }
        look(round, meetings);
    }
    expect(different() == 1, "all show the same in the end", different());
    printf("after %zu meetings all show the same: %zu authors, %zu of them forked\n", meetings,
           shown[0].used / SNOWKNOLL_ENTRY_NUMBERS, forked(&shown[0]));
    return failures != 0;
}
