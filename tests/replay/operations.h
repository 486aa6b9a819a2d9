/* The operations of docs/REPLAY.md, each a function: it reads the arguments of a call, makes it, and puts the words of
 * its line. Where the arguments are wrong it marks the call so and puts nothing. A new one is a function here and a row
 * of the table in main.c. */
#ifndef REPLAY_OPERATIONS_H
#define REPLAY_OPERATIONS_H

#include "answers.h"
#include "call.h"
#include "line.h"
#include "store.h"

/* On items: item_calls.c. */
void call_payload(struct call *call);
void call_id(struct call *call);
void call_layout(struct call *call);
void call_write(struct call *call);

/* On the store: store_calls.c. */
void call_admit(struct call *call);
void call_admit_from(struct call *call);
void call_origin(struct call *call);
void call_load(struct call *call);
void call_dump(struct call *call);
void call_check(struct call *call);
void call_find_id(struct call *call);
void call_find_key(struct call *call);
void call_admit_at(struct call *call);
void call_counts(struct call *call);

/* On a whole intake: intake_calls.c. */
void call_batch(struct call *call);

/* On rows and log states: log_calls.c. */
void call_prefix(struct call *call);
void call_append(struct call *call);
void call_merge(struct call *call);
void call_below(struct call *call);
void call_branches(struct call *call);

/* On frontiers: frontier_calls.c. */
void call_fmerge(struct call *call);
void call_fbelow(struct call *call);
void call_pack(struct call *call);
void call_fvalid(struct call *call);
void call_fappend(struct call *call);
void call_standing(struct call *call);
void call_read(struct call *call);

/* On the catalogue: catalogue_calls.c. */
void call_steady(struct call *call);
void call_backstep(struct call *call);
void call_catalogue(struct call *call);

/* On a stick with holes: salvage_calls.c. */
void call_salvage(struct call *call);

/* On the release desk: desk_calls.c. */
void first_desk(void);
void call_desk(struct call *call);
void call_release_in(struct call *call);
void call_release(struct call *call);
void call_columns(struct call *call);

#endif
