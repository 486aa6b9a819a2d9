#include "answers.h"

#include "line.h"

/* Puts the line of a call that answers a row. */
void put_row(const char *word, uint16_t number, uint16_t row)
{
    put_word(word);
    put_number(number);
    put_number(row);
}

/* Puts the line of a call that answers yes or no. */
void put_choice(const char *word, snowknoll_yes_answer answer)
{
    put_word(word);
    put_number(answer.number);
    put_number(answer.yes);
}

/* Puts the line of a call that answers a state. */
void put_state(const char *word, snowknoll_state_answer answer)
{
    put_word(word);
    put_number(answer.number);
    put_number(answer.state.author);
    put_number(answer.state.phase);
    put_number(answer.state.last);
    put_number(answer.state.low);
    put_number(answer.state.high);
}

/* Puts the line of a call that writes a list of numbers. */
void put_list(const char *word, snowknoll_count_answer answer, const struct lent *list)
{
    put_word(word);
    put_number(answer.number);
    put_number(answer.count);
    put_room(list);
}
