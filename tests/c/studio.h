/* A store at its limits and messages for it, made by the library's own calls, for the programs that call it from C. */
#ifndef STUDIO_H
#define STUDIO_H

#include "lending.h"
#include "snowknoll.h"

/* A store with room up to the limits. */
typedef struct {
    uint8_t keys[SNOWKNOLL_KEYS_LENGTH], ids[SNOWKNOLL_IDS_LENGTH], origins[SNOWKNOLL_ORIGINS_LENGTH];
    uint16_t rows[SNOWKNOLL_ROWS_LENGTH], deps[SNOWKNOLL_DEPS_LENGTH], branches[SNOWKNOLL_BRANCHES_LENGTH];
    snowknoll_counts counts;
} studio;
#define PARTS(s)                                                                                     \
    (s)->keys, SNOWKNOLL_KEYS_LENGTH, (s)->ids, SNOWKNOLL_IDS_LENGTH, (s)->rows, SNOWKNOLL_ROWS_LENGTH, \
    (s)->deps, SNOWKNOLL_DEPS_LENGTH, (s)->branches, SNOWKNOLL_BRANCHES_LENGTH
#define STORE(s) PARTS(s), (s)->counts
#define WITH_ORIGINS(s) PARTS(s), (s)->origins, SNOWKNOLL_ORIGINS_LENGTH, (s)->counts

/* A message: its item, and its id. */
typedef struct {
    uint8_t item[SNOWKNOLL_MIN_ITEM + 8 + 2 * SNOWKNOLL_ID_BYTES], id[SNOWKNOLL_ID_BYTES];
    size_t length;
    uint32_t index;
    uint8_t author;
} message;

/* The message of an author after another one, or a first one after none, with a payload and a dependency or none; what
 * its signature starts with tells it from others. */
static inline message compose(uint8_t author, const message *after, uint8_t signature, const void *payload, size_t bytes,
                              const message *dependency)
{
    message m = {{0}, {0}, 0, after ? after->index + 1 : 1, author};
    uint8_t key[SNOWKNOLL_KEY_BYTES], previous[SNOWKNOLL_ID_BYTES] = {0}, signed_by[SNOWKNOLL_SIGNATURE_BYTES] = {0};
    memset(key, author, sizeof key);
    if (after) memcpy(previous, after->id, sizeof previous);
    signed_by[0] = signature;
    m.length = snowknoll_write_item(1, key, sizeof key, previous, sizeof previous, m.index, (const uint8_t *)payload, bytes,
                                    dependency ? dependency->id : NULL, dependency ? sizeof dependency->id : 0, signed_by,
                                    sizeof signed_by, m.item, sizeof m.item).count;
    hold(m.length > 0 && snowknoll_id(m.item, m.length, m.id) == SNOWKNOLL_DONE, "a message is written");
    return m;
}

/* Admits a message with origin 0; its row. */
static inline uint16_t enter(studio *s, const message *m)
{
    snowknoll_admit_answer answer = snowknoll_admit(m->item, m->length, 0, WITH_ORIGINS(s));
    hold(answer.number == SNOWKNOLL_DONE, "a message is admitted");
    s->counts = answer.counts;
    return answer.row;
}

#endif
