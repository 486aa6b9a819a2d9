/* Replay: reads calls from standard input, makes each through the C functions of the archive on one store, and prints
 * one line for each. docs/REPLAY.md has every operation. Nothing of the library's rules is worked out here. */
#include <stdlib.h>
#include <string.h>
#include <unistd.h>

#include "operations.h"

/* Every operation: its number, and the function that makes it. */
static const struct {
    uint8_t number;
    void (*make)(struct call *call);
} operations[] = {
    {1, call_admit},
    {2, call_load},
    {3, call_dump},
    {4, call_check},
    {5, call_prefix},
    {6, call_append},
    {7, call_merge},
    {8, call_below},
    {9, call_fmerge},
    {10, call_fbelow},
    {11, call_pack},
    {12, call_payload},
    {13, call_id},
    {14, call_admit_from},
    {15, call_origin},
    {16, call_write},
    {17, call_standing},
    {18, call_read},
    {19, call_batch},
    {20, call_steady},
    {21, call_backstep},
    {22, call_catalogue},
    {23, call_salvage},
    {24, call_branches},
    {25, call_desk},
    {26, call_release_in},
    {27, call_release},
    {28, call_columns},
    {40, call_layout},
    {41, call_find_id},
    {42, call_find_key},
    {43, call_admit_at},
    {44, call_fvalid},
    {45, call_fappend},
    {46, call_counts},
};

/* The bytes of one call, its length not counted. */
static uint8_t bytes[CALL_LIMIT];

/* Reads so many bytes from standard input; fewer where it ends before. Returns how many. */
static size_t read_bytes(uint8_t *to, size_t count)
{
    size_t got = 0;
    while (got < count) {
        long now = read(0, to + got, count - got);
        if (now < 0) exit(1);
        if (now == 0) break;
        got += (size_t)now;
    }
    return got;
}

/* Makes the call of these bytes; whether its own layout is right. */
static int make_call(size_t length)
{
    struct call call = {bytes, length, 0, {{0}}, 0};
    size_t operation = take_number(&call, 1), i = 0, known = sizeof operations / sizeof operations[0];
    while (i < known && operations[i].number != operation) i++;
    if (i == known) call.bad = 1;
    if (!call.bad) operations[i].make(&call);
    finish(&call);
    return !call.bad;
}

/* Reads a call that is too long, and keeps nothing of it; whether it was all there. */
static int read_over(size_t length)
{
    while (length > 0) {
        size_t now = length < sizeof bytes ? length : sizeof bytes;
        if (read_bytes(bytes, now) < now) return 0;
        length -= now;
    }
    return 1;
}

/* Reads one call of this length and prints its line; whether it was all there. */
static int answer_call(size_t length)
{
    int whole = length > sizeof bytes ? read_over(length) : read_bytes(bytes, length) == length;
    if (!whole || length > sizeof bytes || !make_call(length)) put_word("bad");
    end_line();
    return whole;
}

/* Takes the words of the command line; whether they make sense. */
static int take_words(int count, char **words)
{
    for (int i = 1; i < count; i++) {
        if (strcmp(words[i], "--begins") == 0) manner.begins = 1;
        else if (strcmp(words[i], "--reaching") == 0 && i + 1 < count) manner.reaching = words[++i];
        else if (strcmp(words[i], "--sealed") == 0 && i + 1 < count) manner.sealed = words[++i];
        else return 0;
    }
    return 1;
}

/* The whole script. */
int main(int count, char **words)
{
    uint8_t head[4];
    size_t got;
    if (!take_words(count, words)) return 2;
    first_store();
    first_desk();
    while ((got = read_bytes(head, sizeof head)) > 0) {
        struct call length = {head, got, 0, {{0}}, 0};
        size_t bytes_to_come = take_number(&length, sizeof head);
        if (length.bad) put_word("bad"), end_line();
        if (length.bad || !answer_call(bytes_to_come)) return 0;
    }
    return 0;
}
