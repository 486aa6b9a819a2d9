/* Calls the catalogue from C and holds the answers to document 02, request 7: a store keeps the rule of steady authors or
 * names the row that breaks it, and an admission starts from a store that keeps it and ends in one. It says which answer is
 * wrong, and ends with status 1 then. */
#include "studio.h"

static studio catalogue, plain, before;

/* Author 1 has three messages; author 2 depends on the second, then on the first: a step back; or on the third. */
static message first, second, third, depends, back, forth, stranger;

/* Writes the messages. */
static void write_messages(void)
{
    first = compose(1, NULL, 0, "", 0, NULL);
    second = compose(1, &first, 0, "", 0, NULL);
    third = compose(1, &second, 0, "", 0, NULL);
    depends = compose(2, NULL, 0, "", 0, &second);
    back = compose(2, &depends, 0, "", 0, &first);
    forth = compose(2, &depends, 1, "", 0, &third);
    stranger = compose(3, NULL, 0, "", 0, NULL);
}

/* Admits a message to the catalogue with an origin, and keeps the counts. */
static snowknoll_admit_answer offer(studio *s, const message *m, uint8_t origin)
{
    snowknoll_admit_answer answer = snowknoll_admit_catalogue(m->item, m->length, origin, WITH_ORIGINS(s));
    s->counts = answer.counts;
    return answer;
}

/* Whether a store keeps the rule, and that it names no row then. */
static int steady(const studio *s)
{
    snowknoll_yes_answer yes = snowknoll_steady(STORE(s));
    snowknoll_backstep_answer step = snowknoll_backstep(STORE(s));
    hold(yes.number == SNOWKNOLL_DONE && step.number == SNOWKNOLL_DONE, "a sound store is judged");
    hold((step.row == 0) == (yes.yes == 1) && (step.row == 0) == (step.earlier == 0), "both calls say the same");
    return yes.yes == 1;
}

/* Messages that keep the rule are admitted, one that breaks it is not, and changes nothing. */
static void try_admission(void)
{
    const message *kept[] = {&first, &second, &third, &depends};
    hold(steady(&catalogue), "an empty store keeps the rule");
    for (uint16_t k = 0; k < 4; k++) {
        snowknoll_admit_answer answer = offer(&catalogue, kept[k], (uint8_t)(k + 7));
        hold(answer.number == SNOWKNOLL_DONE && answer.row == k + 1, "a steady message is admitted");
    }
    before = catalogue;
    hold(offer(&catalogue, &back, 1).number == SNOWKNOLL_BACKSTEP, "a step back is not");
    hold(memcmp(&before, &catalogue, sizeof before) == 0, "a refusal changes nothing");
    hold(offer(&catalogue, &forth, 1).row == 5 && steady(&catalogue), "a step forth is, and the rule is kept");
    hold(offer(&catalogue, &first, 1).number == SNOWKNOLL_HELD && catalogue.origins[0] == 7, "a held one keeps its origin");
}

/* A store that breaks the rule names the row and the one before it, and takes nothing, whatever is offered. */
static void try_store(void)
{
    message broken = stranger;
    enter(&plain, &first), enter(&plain, &second), enter(&plain, &depends), enter(&plain, &back);
    snowknoll_backstep_answer step = snowknoll_backstep(STORE(&plain));
    hold(!steady(&plain) && step.row == 4 && step.earlier == 3, "the row that steps back, and from which");
    broken.length = 3;
    hold(offer(&plain, &stranger, 0).number == SNOWKNOLL_BACKSTEP, "it takes nothing");
    hold(offer(&plain, &broken, 0).number == SNOWKNOLL_BACKSTEP, "before it reads the item");
    plain.counts.rows++;
    hold(offer(&plain, &broken, 0).number == SNOWKNOLL_STORE, "a damaged store comes first");
    hold(snowknoll_steady(STORE(&plain)).number == SNOWKNOLL_STORE, "for the yes or no too");
    step = snowknoll_backstep(STORE(&plain));
    hold(step.number == SNOWKNOLL_STORE && step.row == 0 && step.earlier == 0, "and for the row");
}

/* 15 comes before 23, and 23 before 16: the store has no place for another row. */
static void try_order(void)
{
    studio *s = &before;
    snowknoll_admit_answer answer;
    memset(s, 0, sizeof *s);
    enter(s, &first), enter(s, &second), enter(s, &depends);
    answer = snowknoll_admit_catalogue(back.item, back.length, 0, s->keys, 64, s->ids, 96, s->rows, 12, s->deps, 1, s->branches,
                                       67, s->origins, 3, s->counts);
    hold(answer.number == SNOWKNOLL_BACKSTEP, "a step back where there is no room");
    answer = snowknoll_admit_catalogue(third.item, third.length, 0, s->keys, 64, s->ids, 96, s->rows, 12, s->deps, 1,
                                       s->branches, 67, s->origins, 3, s->counts);
    hold(answer.number == SNOWKNOLL_FULL, "a steady message where there is no room");
    answer = snowknoll_admit_catalogue(third.item, third.length, 0, PARTS(s), s->origins, 2, s->counts);
    hold(answer.number == SNOWKNOLL_STORE, "an origin too few");
}

int main(void)
{
    write_messages();
    try_admission();
    try_store();
    try_order();
    return failures != 0;
}
