/* Salvage: reads an intake stick from standard input, and writes the clean intake to file 3. On standard output it says
 * what was kept, and of each dropped item its number, its place in the file, and its answer in words. What is kept and in
 * which order, the library decides. bin/salvage runs it, and puts the clean intake in its place when it is whole. */
#include <signal.h>
#include <stdint.h>
#include <stdio.h>
#include <stdlib.h>
#include <string.h>
#include <unistd.h>

#include "snowknoll.h"

/* The file that the clean intake goes to. */
#define CLEAN_FILE 3

/* The parts of the store, the list, and what of the store the library leaves. */
static uint8_t keys[SNOWKNOLL_KEYS_LENGTH], ids[SNOWKNOLL_IDS_LENGTH], origins[SNOWKNOLL_ORIGINS_LENGTH];
static uint16_t rows[SNOWKNOLL_ROWS_LENGTH], deps[SNOWKNOLL_DEPS_LENGTH], branches[SNOWKNOLL_BRANCHES_LENGTH];
static uint16_t list[SNOWKNOLL_SALVAGE_LIST_LENGTH];

/* How long it has taken, in seconds, once that is told. */
static volatile sig_atomic_t seconds;

/* Says what is wrong and ends. */
static void die(const char *what)
{
    dprintf(2, "%ssalvage: %s\n", seconds ? "\r\033[K" : "", what);
    exit(1);
}

/* Each second: says on the terminal that the work goes on. */
static void tell(int signal_number)
{
    static const char stages[4][24] = {"\rsalvage: at work   ", "\rsalvage: at work.  ", "\rsalvage: at work.. ", "\rsalvage: at work..."};
    (void)signal_number;
    if (write(2, stages[seconds % 4], strlen(stages[0])) < 0) return;
    seconds = seconds + 1;
    alarm(1);
}

/* Reads all of standard input; how many bytes there are. */
static size_t read_stick(uint8_t **stick)
{
    size_t length = 0, space = 0;
    for (;;) {
        if (length == space) {
            space = space ? 2 * space : (size_t)1 << 20;
            *stick = (uint8_t *)realloc(*stick, space);
            if (!*stick) die("there is not enough memory for this file");
        }
        long now = read(0, *stick + length, space - length);
        if (now < 0) die("the stick cannot be read");
        if (now == 0) return length;
        length += (size_t)now;
    }
}

/* Writes bytes to a file, all of them. */
static void write_whole(int file, const uint8_t *bytes, size_t length)
{
    while (length > 0) {
        long now = write(file, bytes, length);
        if (now <= 0) die("the clean intake cannot be written");
        bytes += now;
        length -= (size_t)now;
    }
}

/* The answer of a dropped item in words. */
static const char *words_of(uint16_t number)
{
    switch (number) {
    case SNOWKNOLL_SHORT: return "SHORT: it is cut short, bytes are missing";
    case SNOWKNOLL_SIZE: return "SIZE: its length, its payload or its dependencies are above the limit";
    case SNOWKNOLL_LONG: return "LONG: there are bytes left over in it";
    case SNOWKNOLL_KIND: return "KIND: it is no release, but some other kind of item";
    case SNOWKNOLL_FLAG: return "FLAG: its mark is neither 0 nor 1";
    case SNOWKNOLL_SIGN: return "SIGN: its signature was not valid";
    case SNOWKNOLL_HELD: return "HELD: it is a repeat";
    case SNOWKNOLL_INDEX: return "INDEX: it has no right place in its chain";
    case SNOWKNOLL_PREV: return "PREV: the release that it builds on is not on the stick, or was dropped";
    case SNOWKNOLL_OWNER: return "OWNER: it builds on a release of another author";
    case SNOWKNOLL_STEP: return "STEP: its number is not one more than that of the release it builds on";
    case SNOWKNOLL_DEP: return "DEP: a release that it depends on is not on the stick, or was dropped";
    case SNOWKNOLL_DEPOWNER: return "DEPOWNER: it depends on its own author, or on two releases of one other author";
    case SNOWKNOLL_FULL: return "FULL: there is no room for it, for its author or for its dependencies";
    default: return "an answer that an item cannot have";
    }
}

/* How many bytes the item has that begins at a place of the stick, where more items follow it. */
static size_t size_of(const uint8_t *item)
{
    return 4 + ((size_t)item[0] | (size_t)item[1] << 8 | (size_t)item[2] << 16 | (size_t)item[3] << 24);
}

/* Prints the numbers of the kept items, in the order of the clean intake, runs of them as one word. */
static void print_kept(size_t items, size_t kept)
{
    static uint16_t number_at[SNOWKNOLL_MAX_ROWS + 2];
    for (size_t i = 0; i < items; i++) {
        if (list[2 * i] == SNOWKNOLL_DONE) number_at[list[2 * i + 1]] = (uint16_t)(i + 1);
    }
    printf("kept %zu of %zu items%s", kept, items, kept ? ", in this order:" : "");
    for (size_t place = 1; place <= kept; place++) {
        size_t first = number_at[place], last = first;
        while (place < kept && number_at[place + 1] == last + 1) place++, last++;
        if (first == last) printf(" %zu", first);
        else printf(" %zu-%zu", first, last);
    }
    printf("\n");
}

/* Prints a line for each dropped item. */
static void print_dropped(const uint8_t *stick, size_t items)
{
    size_t at = 0;
    for (size_t i = 0; i < items; i++) {
        uint16_t number = list[2 * i], row = list[2 * i + 1];
        if (number != SNOWKNOLL_DONE) printf("dropped item %zu, at byte %zu: %s", i + 1, at, words_of(number));
        if (number == SNOWKNOLL_HELD) printf(" of the item kept in place %u", (unsigned)row);
        if (number != SNOWKNOLL_DONE) printf("\n");
        if (i + 1 < items) at += size_of(stick + at);
    }
}

/* The whole rescue. */
int main(void)
{
    uint8_t *stick = NULL;
    if (isatty(2)) {
        signal(SIGALRM, tell);
        alarm(1);
    }
    size_t length = read_stick(&stick);
    uint8_t *clean = (uint8_t *)malloc(length ? length : 1);
    if (!clean) die("there is not enough memory for this file");
    snowknoll_salvage_answer answer =
        snowknoll_salvage(stick, length, keys, sizeof keys, ids, sizeof ids, rows, SNOWKNOLL_ROWS_LENGTH, deps,
                          SNOWKNOLL_DEPS_LENGTH, branches, SNOWKNOLL_BRANCHES_LENGTH, origins, sizeof origins, clean,
                          length, list, SNOWKNOLL_SALVAGE_LIST_LENGTH);
    if (answer.number == SNOWKNOLL_SIZE) die("there are more than 1,024 items on the stick");
    if (answer.number != SNOWKNOLL_DONE) die("the library refuses the stick");
    write_whole(CLEAN_FILE, clean, answer.bytes);
    if (fsync(CLEAN_FILE)) die("the clean intake cannot be written");
    alarm(0);
    if (seconds) dprintf(2, "\r\033[K");
    print_kept(answer.items, answer.counts.rows);
    print_dropped(stick, answer.items);
    return fflush(NULL) ? 1 : 0;
}
