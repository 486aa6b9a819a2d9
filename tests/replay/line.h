/* Lines of words on standard output, one space between words. */
#ifndef REPLAY_LINE_H
#define REPLAY_LINE_H

#include "lent.h"

/* Puts a word, a number in decimal. */
void put_word(const char *word);
void put_number(size_t number);

/* Puts bytes in lower-case hexadecimal, a dash for none. */
void put_bytes(const uint8_t *bytes, size_t count);

/* Puts every number of a part, each as a word. */
void put_room(const struct lent *part);

/* Puts the SHA-256 of the whole part in lower-case hexadecimal. */
void put_sum(const struct lent *part);

/* Ends the line and writes all that was put. */
void end_line(void);

#endif
