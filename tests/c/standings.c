/* Sends standings from C and holds the answers to document 02, request 3: a standing that one studio wrote is read by
 * another with other row numbers as the same by ids; each refusal comes in its order, and leaves the room as it was. Each
 * standing and room that it lends ends where nobody may touch memory. It says which answer is wrong, and ends with status
 * 1 then. */
#include "studio.h"

/* Two studios that hold the same four messages in another order, and one that lacks one of them. */
static studio one, other, less;

/* The frontier of all of them in each of the first two: author 1 forked on its first message, author 2 growing. */
static uint16_t of_one[10], of_other[10];

/* The standing of the first. */
enum { SENT = SNOWKNOLL_AT_ENTRIES + 2 * SNOWKNOLL_STANDING_ENTRY_BYTES };
static uint8_t sent[SENT];

/* Appends each row of a studio to its frontier of two entries. */
static void append_rows(const studio *s, uint16_t *frontier)
{
    size_t used = 0;
    for (uint16_t row = 1; row <= s->counts.rows; row++) {
        used = snowknoll_append_entry(STORE(s), frontier, 10, used, row).count;
    }
    hold(used == 10, "a frontier of two entries");
}

/* Fills the studios. */
static void fill(void)
{
    message root = compose(1, NULL, 0, "", 0, NULL), left = compose(1, &root, 1, "", 0, NULL);
    message right = compose(1, &root, 2, "", 0, NULL), third = compose(2, NULL, 0, "", 0, NULL);
    enter(&one, &root), enter(&one, &left), enter(&one, &right), enter(&one, &third);
    enter(&other, &third), enter(&other, &root), enter(&other, &right), enter(&other, &left);
    enter(&less, &root), enter(&less, &left), enter(&less, &third);
    append_rows(&one, of_one);
    append_rows(&other, of_other);
}

/* What one studio writes the other reads as its own frontier, and it would write the same. */
static void try_sending(void)
{
    uint8_t *to = (uint8_t *)memset(room(SENT), 238, SENT), again[SENT + 1];
    uint16_t *read = (uint16_t *)room(sizeof of_other);
    hold(snowknoll_write_standing(STORE(&one), of_one, 10, to, SENT).count == SENT, "a standing is written");
    memcpy(sent, to, SENT);
    hold(sent[4] == SNOWKNOLL_KIND_STANDING && sent[6] == 2 && sent[SNOWKNOLL_AT_ENTRIES] == 1, "by rising key");
    hold(snowknoll_read_standing(STORE(&one), to, SENT, read, 10).count == 10, "it is read where it was written");
    hold(memcmp(read, of_one, sizeof of_one) == 0, "as the same frontier");
    hold(snowknoll_read_standing(STORE(&other), to, SENT, read, 10).count == 10, "it is read elsewhere");
    hold(memcmp(read, of_other, sizeof of_other) == 0 && memcmp(of_one, of_other, sizeof of_one) != 0, "in other numbers");
    memset(again, 238, sizeof again);
    hold(snowknoll_write_standing(STORE(&other), read, 10, again, sizeof again).count == SENT, "it is written again");
    hold(memcmp(again, sent, SENT) == 0 && again[SENT] == 238, "the same bytes, and the byte after them stays");
}

/* Demands a refusal of a standing, and that it writes nothing. */
static void refused(const studio *s, const uint8_t *item, size_t length, size_t numbers, uint16_t number, const char *what)
{
    uint16_t *out = (uint16_t *)memset(room(2 * numbers), 238, 2 * numbers);
    snowknoll_count_answer answer = snowknoll_read_standing(STORE(s), lend(item, length), length, out, numbers);
    hold(answer.number == number && answer.count == 0, what);
    for (size_t k = 0; k < numbers; k++) hold(out[k] == 61166, "a refusal writes nothing");
}

/* Each refusal of a reading, the later damage first. */
static void try_refusals(void)
{
    uint8_t item[SENT], *second = item + SNOWKNOLL_AT_ENTRIES + SNOWKNOLL_STANDING_ENTRY_BYTES;
    memcpy(item, sent, SENT);
    refused(&one, item, SENT, 9, SNOWKNOLL_ROOM, "a room too small");
    second[SNOWKNOLL_STANDING_ENTRY_BYTES - 1] = 1;
    refused(&one, item, SENT, 9, SNOWKNOLL_FRONTIER, "a byte where no id applies");
    refused(&less, item, SENT, 9, SNOWKNOLL_UNKNOWN, "an id that the store lacks");
    second[32] = 2;
    refused(&less, item, SENT, 9, SNOWKNOLL_FLAG, "a phase that is neither 0 nor 1");
    item[6] = 65;
    refused(&less, item, SENT, 9, SNOWKNOLL_SIZE, "more than 64 entries");
    item[4] = SNOWKNOLL_KIND_MESSAGE;
    refused(&less, item, SENT, 9, SNOWKNOLL_KIND, "another kind");
    refused(&less, item, SENT - 1, 9, SNOWKNOLL_SHORT, "a byte too few");
    less.counts.rows++;
    refused(&less, item, SENT - 1, 9, SNOWKNOLL_STORE, "a damaged store");
    less.counts.rows--;
}

/* The refusals of a writing, and the standing of nobody. */
static void try_writing(void)
{
    static const uint16_t damaged[] = {3, 0, 1, 0, 0};
    uint8_t *out = (uint8_t *)memset(room(SENT - 1), 238, SENT - 1);
    hold(snowknoll_write_standing(STORE(&one), of_one, 10, out, SENT - 1).number == SNOWKNOLL_ROOM, "a byte too few");
    hold(snowknoll_write_standing(STORE(&one), damaged, 5, out, 0).number == SNOWKNOLL_FRONTIER, "no frontier");
    one.counts.rows++;
    hold(snowknoll_write_standing(STORE(&one), damaged, 5, out, 0).number == SNOWKNOLL_STORE, "a damaged store");
    one.counts.rows--;
    for (size_t k = 0; k < SENT - 1; k++) hold(out[k] == 238, "a refusal writes nothing");
    hold(snowknoll_write_standing(STORE(&one), NULL, 0, out, SENT - 1).count == SNOWKNOLL_AT_ENTRIES, "nobody");
    hold(snowknoll_read_standing(STORE(&less), out, SNOWKNOLL_AT_ENTRIES, NULL, 0).number == SNOWKNOLL_DONE, "is read");
}

int main(void)
{
    fill();
    try_sending();
    try_refusals();
    try_writing();
    return failures != 0;
}
