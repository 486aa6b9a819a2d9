#include "line.h"

#include <stdlib.h>
#include <string.h>
#include <unistd.h>

#include "sha256.h"

/* What was put and is not written yet; and whether a word stands in the line already. */
static char held[65536];
static size_t held_bytes;
static int begun;

/* Writes what is held. */
static void write_held(void)
{
    size_t done = 0;
    while (done < held_bytes) {
        long now = write(1, held + done, held_bytes - done);
        if (now <= 0) exit(1);
        done += (size_t)now;
    }
    held_bytes = 0;
}

/* Puts one character. */
static void put(char character)
{
    if (held_bytes == sizeof held) write_held();
    held[held_bytes++] = character;
}

/* Puts the space before every word but the first. */
static void begin_word(void)
{
    if (begun) put(' ');
    begun = 1;
}

/* Puts a word as it stands. */
void put_word(const char *word)
{
    begin_word();
    while (*word) put(*word++);
}

/* Puts a number's decimal digits. */
void put_number(size_t number)
{
    char digits[24];
    size_t place = sizeof digits - 1;
    digits[place] = '\0';
    do {
        digits[--place] = (char)('0' + number % 10);
        number /= 10;
    } while (number > 0);
    put_word(digits + place);
}

/* Puts two hexadecimal digits a byte, or a dash for no bytes. */
void put_bytes(const uint8_t *bytes, size_t count)
{
    static const char digits[] = "0123456789abcdef";
    begin_word();
    if (count == 0) put('-');
    for (size_t i = 0; i < count; i++) {
        put(digits[bytes[i] / 16]);
        put(digits[bytes[i] % 16]);
    }
}

/* Puts every number of a part. */
void put_room(const struct lent *part)
{
    const uint16_t *numbers = (const uint16_t *)(const void *)part->at;
    for (size_t i = 0; i < part->count; i++) put_number(numbers[i]);
}

/* Puts the sum of a part's bytes; numbers are two each, low byte first. */
void put_sum(const struct lent *part)
{
    uint8_t sum[SHA256_BYTES];
    sha256(part->at, part->count * part->size, sum);
    put_bytes(sum, sizeof sum);
}

/* Ends the line and writes it, before the next call is made. */
void end_line(void)
{
    put('\n');
    begun = 0;
    write_held();
}
