/* The catalogue's yes or no, snowknoll_steady, over full stores: beside the plain check of the same store, and beside itself
 * over half the rows. Deep logs: five authors release in turn, and each release depends on the newest of each of the four
 * others. Then two that are made to be slow. Far back: one author has a log as deep as there are rows, and at its end as many
 * branches as there are places, each with the most dependencies, and each goes back to the log's beginning for the nearest
 * earlier one. Walked: what a release depended on and what it depends on are two first releases of one author each, so that
 * nothing but a walk through all between them shows that the one happened before the other. */
#include "../turns.h"
#include "snowknoll.h"

#include <stdio.h>

enum { TURNS = 5, OTHERS = SNOWKNOLL_MAX_AUTHORS - 1, KINDS = 3, SIZES = 2, ROWS = SNOWKNOLL_MAX_ROWS };
enum { DEEP, FAR_BACK, WALKED };
static const char *const kinds[KINDS] = {"deep logs", "far back", "walked"};

/* How many authors of the third kind have two first releases, how many rows lie between these, and where the second ones
 * begin, and the log whose every branch depends on them. */
enum { TWICE = 30, BETWEEN = 470, SECONDS = TWICE + BETWEEN, STEM = SECONDS + TWICE };

/* A store, and its counts and branches at half its rows and at all of them. */
static struct {
    uint8_t keys[SNOWKNOLL_KEYS_LENGTH], ids[SNOWKNOLL_IDS_LENGTH];
    uint16_t rows[SNOWKNOLL_ROWS_LENGTH], deps[SNOWKNOLL_DEPS_LENGTH], branches[SIZES][SNOWKNOLL_BRANCHES_LENGTH];
    snowknoll_counts counts[SIZES];
} store;
#define STORE(size)                                                                                               \
    store.keys, sizeof store.keys, store.ids, sizeof store.ids, store.rows, SNOWKNOLL_ROWS_LENGTH, store.deps,    \
    SNOWKNOLL_DEPS_LENGTH, store.branches[size], SNOWKNOLL_BRANCHES_LENGTH, store.counts[size]

/* What the last call said. */
static int yes;

/* Adds a row: its author, its previous row and so many dependencies, which stand behind those of the rows before it. */
static void add(size_t row, size_t author, size_t previous, size_t dependencies)
{
    uint16_t *numbers = store.rows + SNOWKNOLL_ROW_NUMBERS * row;
    uint8_t *id = store.ids + SNOWKNOLL_ID_BYTES * row;
    numbers[0] = (uint16_t)author;
    numbers[1] = (uint16_t)previous;
    numbers[2] = previous ? (uint16_t)(store.rows[SNOWKNOLL_ROW_NUMBERS * (previous - 1) + 2] + 1) : 1;
    numbers[3] = (uint16_t)dependencies;
    for (size_t i = 2; i < SNOWKNOLL_ID_BYTES; i++) id[i] = (uint8_t)((row + 1) * (2654435761u >> i % 13) >> i % 7);
    id[0] = (uint8_t)row;
    id[1] = (uint8_t)(row >> 8);
}

/* A row of five authors in turn, from a first row and a first author on: how many dependencies it has, which it lays at a
 * place. */
static size_t add_in_turn(size_t row, size_t first, size_t author, uint16_t *deps)
{
    size_t count = 0;
    for (size_t back = 1; back < TURNS; back++)
        if (first + back <= row) deps[count++] = (uint16_t)(row + 1 - back);
    add(row, author + (row - first) % TURNS, row < first + TURNS ? 0 : row + 1 - TURNS, count);
    return count;
}

/* A row of the second kind: 63 authors' first releases; one author's log, whose first release depends on all of them; and at the
 * end branches that do. */
static size_t add_far_back(size_t row, uint16_t *deps)
{
    size_t count = row == OTHERS || row >= ROWS - OTHERS ? OTHERS : 0;
    for (size_t author = 0; author < count; author++) deps[author] = (uint16_t)(author + 1);
    if (row < OTHERS) add(row, row + 1, 0, 0);
    else add(row, OTHERS + 1, row == OTHERS ? 0 : row < ROWS - OTHERS ? row : ROWS - OTHERS, count);
    return count;
}

/* Lays so many rows from one on as dependencies. */
static size_t depend(uint16_t *deps, size_t from, size_t count)
{
    for (size_t k = 0; k < count; k++) deps[k] = (uint16_t)(from + k);
    return count;
}

/* A row of the third kind: first releases; what lies between, which begins with all of them; second first releases, on the last
 * of that; a log that begins with the first ones, and its branches, each with the second ones as long as there are places. */
static size_t add_walked(size_t row, size_t left, uint16_t *deps)
{
    size_t count = 0;
    if (row < TWICE) add(row, row + 1, 0, 0);
    else if (row == TWICE) add(row, TWICE + 1, 0, count = depend(deps, 1, TWICE));
    else if (row < SECONDS) count = add_in_turn(row, TWICE, TWICE + 1, deps);
    else if (row < STEM) add(row, row - SECONDS + 1, 0, count = depend(deps, SECONDS, 1));
    else if (row == STEM) add(row, TWICE + TURNS + 1, 0, count = depend(deps, 1, TWICE));
    else add(row, TWICE + TURNS + 1, STEM + 1, count = left < TWICE ? 0 : depend(deps, SECONDS + 1, TWICE));
    return count;
}

/* Adds a row to a store of a kind, with so many places left for dependencies: how many it has. */
static size_t add_row(int kind, size_t row, size_t left, uint16_t *deps)
{
    if (kind == DEEP) return add_in_turn(row, 0, 1, deps);
    return kind == FAR_BACK ? add_far_back(row, deps) : add_walked(row, left, deps);
}

/* Lays a store of a kind. */
static void lay(int kind)
{
    static const size_t authors_of[KINDS] = {TURNS, SNOWKNOLL_MAX_AUTHORS, TWICE + TURNS + 1};
    size_t deps = 0, authors = authors_of[kind];
    for (size_t row = 0; row < ROWS; row++) {
        uint16_t *own = store.deps + deps;
        if (row == ROWS / 2) store.counts[0] = (snowknoll_counts){row, authors, deps};
        deps += add_row(kind, row, SNOWKNOLL_DEPS_LENGTH - deps, own);
    }
    store.counts[1] = (snowknoll_counts){ROWS, authors, deps};
}

/* Counts the branches of so many rows, anew. */
static void count_branches(size_t size)
{
    uint16_t *branches = store.branches[size];
    for (size_t i = 0; i < SNOWKNOLL_BRANCHES_LENGTH; i++) branches[i] = 0;
    for (size_t row = 0; row < store.counts[size].rows; row++) {
        const uint16_t *numbers = store.rows + SNOWKNOLL_ROW_NUMBERS * row;
        branches[numbers[1] ? SNOWKNOLL_ROW_BRANCHES + numbers[1] - 1 : SNOWKNOLL_AUTHOR_BRANCHES + numbers[0] - 1]++;
    }
}

static void check(void)
{
    yes = snowknoll_well_formed(STORE(1)) == SNOWKNOLL_DONE;
}

static void steady(void)
{
    yes = snowknoll_steady(STORE(1)).yes;
}

static void steady_half(void)
{
    yes = snowknoll_steady(STORE(0)).yes;
}

/* Measures a kind of store. */
static void measure(int kind)
{
    char work[80];
    lay(kind);
    for (size_t size = 0; size < SIZES; size++) count_branches(size);
    check();
    hold(yes, "the store is well formed");
    steady();
    hold(yes, "the store keeps the rule");
    if (kind == DEEP) {
        steady_half();
        hold(yes, "half of it keeps the rule");
    }
    sprintf(work, "steady, 1,024 rows, %zu dependencies, %s", store.counts[1].deps, kinds[kind]);
    compare(work, steady, "the plain check of the store", check, 1);
    if (kind == DEEP) compare(work, steady, "itself over half the rows", steady_half, 1);
}

int main(void)
{
    for (int author = 0; author < SNOWKNOLL_MAX_AUTHORS; author++) store.keys[SNOWKNOLL_KEY_BYTES * author] = (uint8_t)(author + 1);
    for (int kind = 0; kind < KINDS; kind++) measure(kind);
    return 0;
}
