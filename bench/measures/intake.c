/* The program intake over 1,024 items, from its start to its end, beside the second program's way with the same input,
 * which is called and needs no start. The words that run the program are this one's arguments. */
#define _POSIX_C_SOURCE 200809L
#include "../items.h"
#include "../others/second.h"
#include "../turns.h"

#include <fcntl.h>
#include <stdio.h>
#include <sys/wait.h>
#include <unistd.h>

#define INPUT "target/bench/intake.items"
#define OUTPUT "target/bench/intake.lines"

/* The words that run the program, and what the second program prints. */
static char **words;
static uint8_t input[ROWS * ITEM], lines[1 << 16], expected[1 << 16];
static size_t input_length, expected_length;

/* Joins the items, and writes them where the program reads them. */
static void write_input(void)
{
    for (size_t row = 0; row < ROWS; row++) {
        size_t length = items[row][SNOWKNOLL_AT_LENGTH] + 4u;
        memcpy(input + input_length, items[row], length);
        input_length += length;
    }
    FILE *file = fopen(INPUT, "wb");
    hold(file != NULL && fwrite(input, 1, input_length, file) == input_length && fclose(file) == 0, "the input is written");
}

/* In the child: the program in its place. */
static void become(void)
{
    int from = open(INPUT, O_RDONLY), to = open(OUTPUT, O_WRONLY | O_CREAT | O_TRUNC, 0666);
    if (from < 0 || to < 0 || dup2(from, 0) < 0 || dup2(to, 1) < 0) _exit(1);
    execv(words[0], words);
    _exit(1);
}

static void ours(void)
{
    int status = 1;
    pid_t child = fork();
    if (child == 0) become();
    hold(child > 0 && waitpid(child, &status, 0) == child && status == 0, "the program runs");
}

static void theirs(void)
{
    expected_length = second_intake(input, input_length, expected, sizeof expected);
}

/* Holds the program's lines to the second program's. */
static void hold_lines(void)
{
    FILE *file = fopen(OUTPUT, "rb");
    size_t length = file == NULL ? 0 : fread(lines, 1, sizeof lines, file);
    hold(length == expected_length && memcmp(lines, expected, length) == 0, "both print the same lines");
    if (file != NULL) fclose(file);
}

int main(int count, char **arguments)
{
    hold(count > 1, "the words that run the program are given");
    words = arguments + 1;
    lay_items();
    write_input();
    ours();
    theirs();
    hold_lines();
    compare("intake of 1,024 items", ours, "the second program", theirs, 1);
    return 0;
}
