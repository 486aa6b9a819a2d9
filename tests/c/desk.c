/* Calls the release desk from C and holds the answers to document 02, request 14: what a payload says is written beside its
 * row, the current release has the highest index, a byte that is neither 0 nor 1 is never yes, and each refusal comes in its
 * order and changes nothing. It says which answer is wrong, and ends with status 1 then. */
#include "studio.h"

static studio store, before;
static uint16_t components[SNOWKNOLL_COMPONENTS_LENGTH], owners[SNOWKNOLL_OWNERS_LENGTH];
static uint8_t expanded[SNOWKNOLL_EXPANDED_LENGTH];

/* Author 1's log: component 7 closed, component 8, component 7 expanded; and another on the first: a fork. */
static message first, second, third, fork;

/* Writes the messages. */
static void write_messages(void)
{
    first = compose(1, NULL, 0, "\7\0\0", 3, NULL);
    second = compose(1, &first, 0, "\10\0\1", 3, NULL);
    third = compose(1, &second, 0, "\7\0\1", 3, NULL);
    fork = compose(1, &first, 1, "\7\0\0", 3, NULL);
}

/* Admits a message to the desk, and keeps the counts. */
static snowknoll_admit_answer offer(const message *m, size_t places)
{
    snowknoll_admit_answer answer =
        snowknoll_desk_admit(m->item, m->length, 9, PARTS(&store), store.origins, SNOWKNOLL_ORIGINS_LENGTH, components, places,
                             expanded, places, store.counts);
    store.counts = answer.counts;
    return answer;
}

/* Asks for the current release of a component where author 1 grows at a row. */
static snowknoll_release_answer ask(uint16_t last, uint16_t component)
{
    const uint16_t f[] = {1, SNOWKNOLL_GROWING, last, 0, 0};
    return snowknoll_current_release(STORE(&store), f, 5, components, SNOWKNOLL_COMPONENTS_LENGTH, expanded,
                                     SNOWKNOLL_EXPANDED_LENGTH, owners, SNOWKNOLL_OWNERS_LENGTH, component);
}

/* Whether an answer shows this release. */
static int shows(snowknoll_release_answer a, uint16_t row, uint8_t is_expanded, uint8_t frozen)
{
    return a.number == SNOWKNOLL_DONE && a.row == row && a.index == row && a.expanded == is_expanded && a.frozen == frozen;
}

/* Releases are admitted, and their places written. */
static void try_admission(void)
{
    const message *log[] = {&first, &second, &third};
    memset(expanded, 238, sizeof expanded);
    for (uint16_t k = 0; k < 3; k++) hold(offer(log[k], 3).row == k + 1, "a release is admitted");
    hold(components[0] == 7 && components[1] == 8 && components[2] == 7 && components[3] == 0, "the components");
    hold(expanded[0] == 0 && expanded[1] == 1 && expanded[2] == 1 && expanded[3] == 238, "the expanded bytes");
    hold(store.origins[2] == 9, "the origin");
    hold(offer(&fork, 3).number == SNOWKNOLL_FULL, "a column without a place");
}

/* Payloads that are no release change nothing, and come before a store that is full and after what admission refuses. */
static void try_payloads(void)
{
    static const char *const wrong[] = {"", "\7\0", "\7\0\1\0", "\7\0\2", "\7\0\377", "false"};
    static const size_t sizes[] = {0, 2, 4, 3, 3, 5};
    before = store;
    for (size_t k = 0; k < 6; k++) {
        message m = compose(2, NULL, 0, wrong[k], sizes[k], NULL), own = compose(1, &third, 0, wrong[k], sizes[k], &first);
        hold(offer(&m, SNOWKNOLL_COMPONENTS_LENGTH).number == SNOWKNOLL_PAYLOAD, "a payload that is no release");
        hold(offer(&m, 3).number == SNOWKNOLL_PAYLOAD, "before a column without a place");
        hold(offer(&own, 3).number == SNOWKNOLL_DEPOWNER, "after a dependency of its own author");
    }
    hold(memcmp(&before, &store, sizeof store) == 0 && components[3] == 0 && expanded[3] == 238, "nothing is changed");
}

/* The current release as the frontier grows, and as the log is frozen. */
static void try_release(void)
{
    const uint16_t forked[] = {1, SNOWKNOLL_FORKED, 1, 0, 0};
    uint16_t f[5];
    owners[6] = 1;
    hold(shows(ask(1, 7), 1, 0, 0) && shows(ask(2, 7), 1, 0, 0) && shows(ask(3, 7), 3, 1, 0), "the highest index");
    hold(shows(ask(3, 8), 0, 0, 0), "a component that nobody owns");
    owners[7] = 1;
    hold(ask(3, 8).row == 2 && ask(1, 8).row == 0, "another component, and none yet");
    uint16_t row = offer(&fork, SNOWKNOLL_COMPONENTS_LENGTH).row;
    memcpy(f, forked, sizeof f);
    int lower = memcmp(second.id, fork.id, SNOWKNOLL_ID_BYTES) < 0;
    f[3] = lower ? 2 : row;
    f[4] = lower ? row : 2;
    hold(shows(snowknoll_current_release(STORE(&store), f, 5, components, SNOWKNOLL_COMPONENTS_LENGTH, expanded,
                                         SNOWKNOLL_EXPANDED_LENGTH, owners, SNOWKNOLL_OWNERS_LENGTH, 7), 1, 0, 1),
         "a frozen log shows what it is frozen at");
}

/* Each refusal of the question, the later damage first. */
static void try_refusals(void)
{
    hold(ask(3, 0).number == SNOWKNOLL_COMPONENT && ask(3, 513).number == SNOWKNOLL_COMPONENT, "no such component");
    hold(ask(3, 512).number == SNOWKNOLL_DONE, "the last component");
    owners[511] = 2;
    hold(ask(3, 513).number == SNOWKNOLL_OWNERLESS, "an owner above the author count");
    expanded[1] = 2;
    hold(ask(3, 513).number == SNOWKNOLL_PAYLOAD, "a byte that is neither 0 nor 1");
    hold(ask(5, 513).number == SNOWKNOLL_FRONTIER, "a frontier that is not valid");
    store.counts.rows++;
    hold(ask(5, 513).number == SNOWKNOLL_STORE, "a damaged store");
    store.counts.rows--;
    expanded[1] = 1;
    owners[511] = 0;
    hold(snowknoll_current_release(STORE(&store), NULL, 0, components, 3, expanded, SNOWKNOLL_EXPANDED_LENGTH, owners,
                                   SNOWKNOLL_OWNERS_LENGTH, 7).number == SNOWKNOLL_PAYLOAD, "a column that is too short");
    hold(snowknoll_current_release(STORE(&store), NULL, 0, components, 4, expanded, 3, owners, SNOWKNOLL_OWNERS_LENGTH,
                                   7).number == SNOWKNOLL_PAYLOAD, "the other column");
    hold(snowknoll_current_release(STORE(&store), NULL, 0, components, 4, expanded, 4, owners, 511, 7).number ==
         SNOWKNOLL_PAYLOAD, "a table that is too short");
    hold(shows(snowknoll_current_release(STORE(&store), NULL, 0, components, 4, expanded, 4, owners, 512, 7), 0, 0, 0),
         "an owner without an entry");
}

int main(void)
{
    write_messages();
    try_admission();
    try_payloads();
    try_release();
    try_refusals();
    return failures != 0;
}
