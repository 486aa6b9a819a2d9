/* The lines of answers that several calls give. */
#ifndef REPLAY_ANSWERS_H
#define REPLAY_ANSWERS_H

#include "lent.h"
#include "snowknoll.h"

/* Puts a call's word, the number of its answer, and a row. */
void put_row(const char *word, uint16_t number, uint16_t row);

/* Puts a call's word, the number of its answer, and 1 for yes or 0. */
void put_choice(const char *word, snowknoll_yes_answer answer);

/* Puts a call's word, the number of its answer, and the five numbers of a state. */
void put_state(const char *word, snowknoll_state_answer answer);

/* Puts a call's word, the number of its answer, how many numbers were written, and the whole list that they are in. */
void put_list(const char *word, snowknoll_count_answer answer, const struct lent *list);

#endif
