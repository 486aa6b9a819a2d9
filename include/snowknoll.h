/* Snowknoll: the proved calls, for programs in C and C++. Link libsnowknoll.a, which bin/library makes, for x86-64; of
 * the C library it uses memcpy and memset alone. docs/PROMISES.md says which proof stands behind each sentence here.
 *
 * An item is bytes, numbers little-endian: length 4 (of all that follows), kind 2 (which is 1), mark 1, author key 32,
 * previous id 32, index 4, payload length 4, payload, dependency count 2, dependency ids 32 each, signature 64. The mark
 * is the host's word on the signature: 1 valid, 0 not, nothing else is yes. An index of 1 means no previous message, and
 * the previous id is then 32 zero bytes. The id of an item is SHA-256 over all that follows its mark. A standing, an item of
 * kind 3, says by keys and ids where a studio stands: length 4, kind 2 (which is 3), entry count 2, then for each entry, by
 * rising key, author key 32, phase 1, one byte that is 1 where there is a last message and else 0, last id 32, low id 32, high
 * id 32. Ids that do not apply are zero bytes.
 *
 * A store is five lent parts and three counts, and a sixth part beside them that most calls never see, the origins. Rows
 * and authors are numbered from 1 in the order of their admission; 0 means none. Numbers of rows differ between studios,
 * ids do not.
 *   keys      32 bytes for each author;
 *   ids       32 bytes for each row;
 *   rows      4 numbers for each row: author, previous row, index, number of dependencies;
 *   deps      the rows that each row depends on, row after row;
 *   branches  a number for each author, how many first messages it has; then, from place 64 on, a number for each row,
 *             how many rows have it as their previous row.
 *   origins   a byte for each row: who handed it to us, 0 to 255, as the caller said at its admission. What the bytes mean
 *             is the caller's own. They are lent to the admissions (also the catalogue's and the desk's), the intake and
 *             the salvage, which write them, and to snowknoll_origin, which reports them; no other call sees them, and no
 *             answer but a report depends on what they hold.
 * Lengths are counted in bytes for keys, ids and origins, in numbers for rows, deps and branches. A part may be shorter
 * than its limit: its length is the limit then. An empty store has three counts of 0; its parts may hold anything.
 *
 * The release desk has two columns more, a place for each row like the origins, and a table. They are lent to the desk's two
 * calls alone, snowknoll_desk_admit, which writes the columns, and snowknoll_current_release.
 *   components  a number for each row: the component that its message is a release of;
 *   expanded    a byte for each row: whether the release's menu starts expanded, 1 yes, 0 no, nothing else is yes;
 *   owners      a number for each component, 1 to 512 in order: its owner, an author number, or 0 for none.
 *
 * A frontier is a list of entries of five numbers, author, phase, last, low, high, authors rising. The length of a
 * frontier is counted in numbers, not in entries.
 *
 * Every call ends, on any content of what it is lent, and writes only what it is said to write below. Every call on a
 * store checks it first, but for the two lookups, snowknoll_find_id and snowknoll_find_key, which are lent one part of
 * it and check nothing, and for snowknoll_salvage, which begins with an empty store. The number of an answer is one of enum snowknoll_number, and every other than SNOWKNOLL_DONE is
 * a refusal. A refusal is given only where its line holds; where several hold it is the first in the order that stands
 * at the call, and 2 to 5 go in the order in which the bytes are read. A refusal changes nothing lent.
 *
 * What the caller keeps to, and nothing checks:
 *   - a pointer with a length points to as many elements as that says; where the length is 0 it may be null;
 *   - a pointer to one id or key has no length: it is never null and points to 32 bytes, and no others are touched;
 *   - pointers to numbers of 2 bytes are aligned to 2, as an array of uint16_t is; pointers to bytes need no alignment,
 *     and structs go by value, so that the compiler lays them;
 *   - a part that a call writes overlaps no other lent part, and nobody else changes a lent part during a call.
 * Calls keep nothing, allocate nothing and share nothing: two threads may call at once over different stores.
 */
#ifndef SNOWKNOLL_H
#define SNOWKNOLL_H

#include <stddef.h>
#include <stdint.h>

#ifdef __cplusplus
extern "C" {
#endif

/* Sizes of what a store is made of. */
#define SNOWKNOLL_KEY_BYTES 32
#define SNOWKNOLL_ID_BYTES 32
#define SNOWKNOLL_SIGNATURE_BYTES 64
#define SNOWKNOLL_ROW_NUMBERS 4
#define SNOWKNOLL_ENTRY_NUMBERS 5
#define SNOWKNOLL_BRANCH_NUMBERS 2
#define SNOWKNOLL_ANSWER_NUMBERS 2
#define SNOWKNOLL_RELEASE_BYTES 3

/* Limits. */
#define SNOWKNOLL_MAX_ROWS 1024
#define SNOWKNOLL_MAX_AUTHORS 64
#define SNOWKNOLL_MAX_DEPENDENCIES 4096
#define SNOWKNOLL_MAX_PAYLOAD 4096
#define SNOWKNOLL_MAX_MESSAGE_DEPENDENCIES 63
#define SNOWKNOLL_MAX_COMPONENTS 512
#define SNOWKNOLL_MAX_LENGTH 6253
#define SNOWKNOLL_MIN_ITEM 145
#define SNOWKNOLL_MAX_ITEM 6257

/* How many elements the parts of a full store have, the desk's columns and its table, and the longest frontier, packing list,
 * list of branches and list of a salvage. */
#define SNOWKNOLL_KEYS_LENGTH (SNOWKNOLL_MAX_AUTHORS * SNOWKNOLL_KEY_BYTES)
#define SNOWKNOLL_IDS_LENGTH (SNOWKNOLL_MAX_ROWS * SNOWKNOLL_ID_BYTES)
#define SNOWKNOLL_ROWS_LENGTH (SNOWKNOLL_MAX_ROWS * SNOWKNOLL_ROW_NUMBERS)
#define SNOWKNOLL_DEPS_LENGTH SNOWKNOLL_MAX_DEPENDENCIES
#define SNOWKNOLL_BRANCHES_LENGTH (SNOWKNOLL_MAX_AUTHORS + SNOWKNOLL_MAX_ROWS)
#define SNOWKNOLL_ORIGINS_LENGTH SNOWKNOLL_MAX_ROWS
#define SNOWKNOLL_COMPONENTS_LENGTH SNOWKNOLL_MAX_ROWS
#define SNOWKNOLL_EXPANDED_LENGTH SNOWKNOLL_MAX_ROWS
#define SNOWKNOLL_OWNERS_LENGTH SNOWKNOLL_MAX_COMPONENTS
#define SNOWKNOLL_FRONTIER_LENGTH (SNOWKNOLL_MAX_AUTHORS * SNOWKNOLL_ENTRY_NUMBERS)
#define SNOWKNOLL_LIST_LENGTH SNOWKNOLL_MAX_ROWS
#define SNOWKNOLL_BRANCH_LIST_LENGTH (SNOWKNOLL_MAX_ROWS * SNOWKNOLL_BRANCH_NUMBERS)
#define SNOWKNOLL_SALVAGE_LIST_LENGTH (SNOWKNOLL_MAX_ROWS * SNOWKNOLL_ANSWER_NUMBERS)

/* Where the numbers of the authors begin in branches, and those of the rows. That of author a stands at place
 * SNOWKNOLL_AUTHOR_BRANCHES + a - 1, that of row r at SNOWKNOLL_ROW_BRANCHES + r - 1: a program reads them with no call. */
#define SNOWKNOLL_AUTHOR_BRANCHES 0
#define SNOWKNOLL_ROW_BRANCHES SNOWKNOLL_MAX_AUTHORS

/* The kind of an item that is a message, and the places of its fields. The dependency count stands right behind the payload. */
#define SNOWKNOLL_KIND_MESSAGE 1
#define SNOWKNOLL_AT_LENGTH 0
#define SNOWKNOLL_AT_KIND 4
#define SNOWKNOLL_AT_MARK 6
#define SNOWKNOLL_AT_KEY 7
#define SNOWKNOLL_AT_PREVIOUS 39
#define SNOWKNOLL_AT_INDEX 71
#define SNOWKNOLL_AT_PAYLOAD_LENGTH 75
#define SNOWKNOLL_AT_PAYLOAD 79

/* An item of kind 3, a standing: where its entry count and its entries stand, how many bytes an entry has, and where in an
 * entry the phase, the presence byte of last, the last id and the evidence ids stand, behind the key. */
#define SNOWKNOLL_KIND_STANDING 3
#define SNOWKNOLL_AT_ENTRY_COUNT 6
#define SNOWKNOLL_AT_ENTRIES 8
#define SNOWKNOLL_STANDING_ENTRY_BYTES 130
#define SNOWKNOLL_TO_PHASE 32
#define SNOWKNOLL_TO_PRESENCE 33
#define SNOWKNOLL_TO_LAST 34
#define SNOWKNOLL_TO_LOW 66
#define SNOWKNOLL_TO_HIGH 98
#define SNOWKNOLL_MAX_STANDING 8328

/* The answer numbers. 13 is unused and never given: a previous row never follows the message that names it. */
enum snowknoll_number {
    SNOWKNOLL_DONE = 0,      /* done */
    SNOWKNOLL_STORE = 1,     /* the store is not well formed, or there are fewer origins than rows */
    SNOWKNOLL_SHORT = 2,     /* bytes missing, or length under 2 */
    SNOWKNOLL_SIZE = 3,      /* length, payload, dependencies or entries above limit */
    SNOWKNOLL_LONG = 4,      /* bytes left over */
    SNOWKNOLL_KIND = 5,      /* kind is not 1, of a standing not 3 */
    SNOWKNOLL_FLAG = 6,      /* mark, phase or presence byte is neither 0 nor 1 */
    SNOWKNOLL_SIGN = 7,      /* mark is 0 */
    SNOWKNOLL_HELD = 8,      /* id already in the store, with its row */
    SNOWKNOLL_INDEX = 9,     /* index 0, or index 1 with a previous field not zero */
    SNOWKNOLL_PREV = 10,     /* index above 1, previous id not in the store */
    SNOWKNOLL_OWNER = 11,    /* previous row has another author */
    SNOWKNOLL_STEP = 12,     /* index is not the previous one plus 1 */
    SNOWKNOLL_DEP = 14,      /* a dependency id not in the store */
    SNOWKNOLL_DEPOWNER = 15, /* dependency of the message's own author, or two of one author */
    SNOWKNOLL_FULL = 16,     /* no free row or no place for a new author, or too few dependency places, in any part */
    SNOWKNOLL_STATE = 17,    /* log state not valid */
    SNOWKNOLL_PAIR = 18,     /* two states of different authors */
    SNOWKNOLL_ROW = 19,      /* message row 0, above the row count, or another author's */
    SNOWKNOLL_FRONTIER = 20, /* frontier not valid */
    SNOWKNOLL_ROOM = 21,     /* output shorter than the result */
    SNOWKNOLL_UNKNOWN = 22,  /* a key or an id that the store lacks */
    SNOWKNOLL_BACKSTEP = 23, /* the store or the message breaks M7 */
    SNOWKNOLL_WHOLE = 24,    /* the log is whole: a growing state has no branches to list */
    SNOWKNOLL_PAYLOAD = 25,  /* the payload is no release, or the desk's parts are damaged */
    SNOWKNOLL_OWNERLESS = 26, /* an owner above the author count */
    SNOWKNOLL_COMPONENT = 27 /* component number outside 1 to 512 */
};

/* The phases of a log state. */
enum snowknoll_phase { SNOWKNOLL_GROWING = 0, SNOWKNOLL_FORKED = 1 };

/* How much of a store's parts is in use. */
typedef struct { size_t rows, authors, deps; } snowknoll_counts;

/* A log state, the same five numbers as an entry of a frontier: its author, its phase, its last row or 0 for none, and
 * when forked the two evidence rows, the one with the lower id first; both are 0 when growing. */
typedef struct { uint16_t author, phase, last, low, high; } snowknoll_state;

/* The fields of an item: mark and index; the place and size of its payload; the place of its dependency ids and their
 * count. Zeros where it is refused. */
typedef struct {
    uint16_t number;
    uint8_t mark;
    size_t index, payload, size, dependencies, count;
} snowknoll_item_answer;

/* A stretch of the lent bytes: its first place and its length. Both are 0 where it is refused. */
typedef struct { uint16_t number; size_t start, length; } snowknoll_stretch_answer;

/* An admission: the new row, the row that holds the id (HELD), or 0; and the counts of the store after it. */
typedef struct { uint16_t number, row; snowknoll_counts counts; } snowknoll_admit_answer;

/* A whole intake: how many items there are, 0 where the call is refused; and the counts of the store after it. */
typedef struct { uint16_t number; size_t items; snowknoll_counts counts; } snowknoll_intake_answer;

/* A row that breaks M7, and the earlier row that it breaks it against; zeros where no row does and where the call is
 * refused. */
typedef struct { uint16_t number, row, earlier; } snowknoll_backstep_answer;

/* The origin of a row; 0 where the call is refused. */
typedef struct { uint16_t number; uint8_t origin; } snowknoll_origin_answer;

/* A prefix: its row, or 0 for none, and which way each side goes: its child toward the first and toward the second, 0 for a
 * side that stands at the prefix itself. Zeros where the call is refused. */
typedef struct { uint16_t number, row, first, second; } snowknoll_prefix_answer;

/* A log state; five zeros where the call is refused. */
typedef struct { uint16_t number; snowknoll_state state; } snowknoll_state_answer;

/* Yes, 1, or no, 0; 0 where the call is refused. */
typedef struct { uint16_t number, yes; } snowknoll_yes_answer;

/* How many numbers, or bytes of an item, were written; 0 where the call is refused. */
typedef struct { uint16_t number; size_t count; } snowknoll_count_answer;

/* The current release of a component: its row and index, whether its menu starts expanded and whether its owner's log is
 * frozen, 1 or 0. Row 0 says that there is none; zeros then, and where the call is refused. */
typedef struct { uint16_t number, row, index; uint8_t expanded, frozen; } snowknoll_release_answer;

/* What a salvage wrote: how many items the stick has, two numbers of the list each; how many bytes the clean intake has; and
 * the counts of the store, whose rows are the kept items. Zeros where the call is refused. */
typedef struct { uint16_t number; size_t items, bytes; snowknoll_counts counts; } snowknoll_salvage_answer;

/* The fields of an item. It is one, and the answer 0, exactly when the bytes are its fields laid as above, with payload
 * and dependencies within their limits; the mark may be any byte. Writes nothing. Numbers 0, 2 to 5. */
snowknoll_item_answer snowknoll_layout(const uint8_t *item, size_t item_length);

/* Where the payload lies in the item; no copy is made. A refusal gives an empty stretch. Writes nothing. Numbers 0, 2 to
 * 5. */
snowknoll_stretch_answer snowknoll_payload(const uint8_t *item, size_t item_length);

/* Writes the item's id, all 32 bytes of it: SHA-256 of FIPS 180-4 over all that follows the mark, whatever the mark. A
 * refusal leaves id as it was. Numbers 0, 2 to 5. */
uint16_t snowknoll_id(const uint8_t *item, size_t item_length, uint8_t id[SNOWKNOLL_ID_BYTES]);

/* Whether the lent parts with the counts are a well-formed store: 0 exactly when they are, else 1. Each number of branches
 * that the counts reach must be right. Writes nothing. */
uint16_t snowknoll_well_formed(
    const uint8_t *keys, size_t keys_length, const uint8_t *ids, size_t ids_length,
    const uint16_t *rows, size_t rows_length, const uint16_t *deps, size_t deps_length,
    const uint16_t *branches, size_t branches_length, snowknoll_counts counts);

/* The first row among the first count (or as many as ids holds whole) whose id is these 32 bytes; 0 where none has it.
 * In a well-formed store it is the only one, which is not checked. Nothing is refused; writes nothing. */
size_t snowknoll_find_id(
    const uint8_t *ids, size_t ids_length, size_t count, const uint8_t id[SNOWKNOLL_ID_BYTES]);

/* The first author among the first count (or as many as keys holds whole) whose key is these 32 bytes; 0 where none has
 * it. In a well-formed store it is the only one, which is not checked. Nothing is refused; writes nothing. */
size_t snowknoll_find_key(
    const uint8_t *keys, size_t keys_length, size_t count, const uint8_t key[SNOWKNOLL_KEY_BYTES]);

/* Admits an item. Done exactly when all of this holds (M1 to M6 are the rules of the paper 2P-BFT-Log):
 *   - the store is well formed and has an origin for each row, the bytes are an item, its mark is 1 (M5), and no row has
 *     its id;
 *   - its index is 1 and its previous id is 32 zero bytes; or its index is above 1, its previous id is that of a row
 *     (M1) of the same author (M2), and its index is that row's plus 1. That no cycle is made (M6) follows;
 *   - each dependency is the id of a row of another author (M3), and no two are of one author (M4);
 *   - there is a free row, a place for the key where no author has it yet, and a place for each dependency. A row needs
 *     its place in ids, in rows, in branches and in origins, an author in keys and in branches.
 * Then the store holds one more row, its id, its dependencies and, for a new key, that key; branches has 0 for the new
 * row, and one more for its previous row or, for a first message, for its author: 1 where the author is new; and origins
 * has the origin given for the new row. The answer has the row and the new counts, and all else stays, the room beyond
 * too. On every other answer all parts stay and the counts are those handed in; the row is 0, or for HELD the row that
 * has the id, which keeps its first origin. A well-formed store stays well formed. Neither the answer nor the other parts
 * depend on the origin given or on what origins holds. Numbers 0 to 12, 14 to 16. */
snowknoll_admit_answer snowknoll_admit(
    const uint8_t *item, size_t item_length, uint8_t origin, uint8_t *keys, size_t keys_length,
    uint8_t *ids, size_t ids_length, uint16_t *rows, size_t rows_length, uint16_t *deps, size_t deps_length,
    uint16_t *branches, size_t branches_length, uint8_t *origins, size_t origins_length, snowknoll_counts counts);

/* The same for the item that lies in an intake from start up to end, where it lies. Places past the intake's end are its
 * end; an end before the start makes no bytes. Numbers 0 to 12, 14 to 16. */
snowknoll_admit_answer snowknoll_admit_at(
    const uint8_t *intake, size_t intake_length, size_t start, size_t end, uint8_t origin, uint8_t *keys, size_t keys_length,
    uint8_t *ids, size_t ids_length, uint16_t *rows, size_t rows_length, uint16_t *deps, size_t deps_length,
    uint16_t *branches, size_t branches_length, uint8_t *origins, size_t origins_length, snowknoll_counts counts);

/* Takes in a whole stretch of items: checks the store once, then admits each item in turn, all with one origin, and writes
 * the number and the row of each one's answer to list, two numbers an item from its start on. The parts, the counts and
 * every answer are then what snowknoll_admit leaves and gives for the items one by one in order, refusals between
 * admissions included. Each item is cut at its length. Where a length is above SNOWKNOLL_MAX_LENGTH, or the stretch ends
 * inside an item, all the rest is the last item, answered 3 or 2. An item has 4 bytes at least, so there are at most
 * stretch_length / 4 + 1 of them. The answer has how many there are; the room beyond stays. A refusal changes nothing:
 * 1 (where origins is shorter than the row count too), then 21 (list shorter than two numbers an item). Numbers 0, 1, 21. */
snowknoll_intake_answer snowknoll_take_in(
    const uint8_t *stretch, size_t stretch_length, uint8_t origin, uint8_t *keys, size_t keys_length,
    uint8_t *ids, size_t ids_length, uint16_t *rows, size_t rows_length, uint16_t *deps, size_t deps_length,
    uint16_t *branches, size_t branches_length, uint8_t *origins, size_t origins_length, snowknoll_counts counts,
    uint16_t *list, size_t list_length);

/* The origin of a row: the one given at its admission. So when an author is frozen, the origins of the two evidence rows
 * say whom to ring. Writes nothing. Numbers 0, 1 (where origins is shorter than the row count too), 19 (row 0 or above the
 * count). */
snowknoll_origin_answer snowknoll_origin(
    const uint8_t *keys, size_t keys_length, const uint8_t *ids, size_t ids_length, const uint16_t *rows,
    size_t rows_length, const uint16_t *deps, size_t deps_length, const uint16_t *branches, size_t branches_length,
    const uint8_t *origins, size_t origins_length, snowknoll_counts counts, uint16_t row);

/* The public catalogue takes only authors who keep M7: where one message is before another in a log, and both depend on
 * messages of the same third author, the earlier dependency is the same as the later one or happened before it. Yes where
 * every row of the store keeps it. Writes nothing. Numbers 0, 1. The three calls of the catalogue may call themselves as
 * deep as there are rows: leave 512 KiB of stack. */
snowknoll_yes_answer snowknoll_steady(
    const uint8_t *keys, size_t keys_length, const uint8_t *ids, size_t ids_length, const uint16_t *rows,
    size_t rows_length, const uint16_t *deps, size_t deps_length, const uint16_t *branches, size_t branches_length,
    snowknoll_counts counts);

/* The lowest row that breaks M7, and the latest earlier row that it breaks it against; 0 and 0 where no row does. Writes
 * nothing. Numbers 0, 1. */
snowknoll_backstep_answer snowknoll_backstep(
    const uint8_t *keys, size_t keys_length, const uint8_t *ids, size_t ids_length, const uint16_t *rows,
    size_t rows_length, const uint16_t *deps, size_t deps_length, const uint16_t *branches, size_t branches_length,
    snowknoll_counts counts);

/* Admits one item under the catalogue's profile: what snowknoll_admit does, with one rule more, M7, of the store and of
 * the message. In order: 1; 23 where the store breaks M7; 2 to 15; 23 where the message would break it; 16. Where the
 * answer is not 23, it, the parts and the counts are those of snowknoll_admit. A store that keeps M7 still keeps it.
 * Numbers 0 to 12, 14 to 16, 23. */
snowknoll_admit_answer snowknoll_admit_catalogue(
    const uint8_t *item, size_t item_length, uint8_t origin, uint8_t *keys, size_t keys_length, uint8_t *ids,
    size_t ids_length, uint16_t *rows, size_t rows_length, uint16_t *deps, size_t deps_length, uint16_t *branches,
    size_t branches_length, uint8_t *origins, size_t origins_length, snowknoll_counts counts);

/* The last row at or before both rows a and b of one author, or 0 for none; a and b may be 0 for none. With it the row on
 * it that is at or before a, and the one that is at or before b; where the prefix is none, these are their first messages.
 * Writes nothing. Numbers 0, 1, 19 (a row above the count, or b of another author than a). */
snowknoll_prefix_answer snowknoll_prefix(
    const uint8_t *keys, size_t keys_length, const uint8_t *ids, size_t ids_length, const uint16_t *rows,
    size_t rows_length, const uint16_t *deps, size_t deps_length, const uint16_t *branches, size_t branches_length,
    snowknoll_counts counts, uint16_t a, uint16_t b);

/* The state with one more message, row, of its author: the merge with growing at that row. Writes nothing. Numbers 0, 1,
 * 17, 19. Five numbers that are no state (another phase, or growing with low or high not 0) are answered 17. */
snowknoll_state_answer snowknoll_append(
    const uint8_t *keys, size_t keys_length, const uint8_t *ids, size_t ids_length, const uint16_t *rows,
    size_t rows_length, const uint16_t *deps, size_t deps_length, const uint16_t *branches, size_t branches_length,
    snowknoll_counts counts, snowknoll_state state, uint16_t row);

/* The merge of two states of one author: the state of the union of what both stand on. It is the least state above both,
 * and many states merged in any order and grouping, with repeats, end in one. Writes nothing. Numbers 0, 1, 17 (for the
 * first, then the second), 18. */
snowknoll_state_answer snowknoll_merge(
    const uint8_t *keys, size_t keys_length, const uint8_t *ids, size_t ids_length, const uint16_t *rows,
    size_t rows_length, const uint16_t *deps, size_t deps_length, const uint16_t *branches, size_t branches_length,
    snowknoll_counts counts, snowknoll_state first, snowknoll_state second);

/* Whether the first of two states of one author is at or below the second, which is so exactly when their merge is the
 * second. Writes nothing. Numbers 0, 1, 17 (for the first, then the second), 18. */
snowknoll_yes_answer snowknoll_at_or_below(
    const uint8_t *keys, size_t keys_length, const uint8_t *ids, size_t ids_length, const uint16_t *rows,
    size_t rows_length, const uint16_t *deps, size_t deps_length, const uint16_t *branches, size_t branches_length,
    snowknoll_counts counts, snowknoll_state first, snowknoll_state second);

/* Whether the list f is a valid frontier of the store: a multiple of five numbers, authors rising strictly, each entry a
 * valid state. Writes nothing. Numbers 0, 1. */
snowknoll_yes_answer snowknoll_valid_frontier(
    const uint8_t *keys, size_t keys_length, const uint8_t *ids, size_t ids_length, const uint16_t *rows,
    size_t rows_length, const uint16_t *deps, size_t deps_length, const uint16_t *branches, size_t branches_length,
    snowknoll_counts counts, const uint16_t *f, size_t f_length);

/* Whether the frontier g has all authors of the frontier f, each of f's states at or below g's. Writes nothing. Numbers
 * 0, 1, 20 (for f, then g). */
snowknoll_yes_answer snowknoll_frontier_at_or_below(
    const uint8_t *keys, size_t keys_length, const uint8_t *ids, size_t ids_length, const uint16_t *rows,
    size_t rows_length, const uint16_t *deps, size_t deps_length, const uint16_t *branches, size_t branches_length,
    snowknoll_counts counts, const uint16_t *f, size_t f_length, const uint16_t *g, size_t g_length);

/* Writes the merged frontier of f and g to the start of out, and answers how many numbers it has: each author of either
 * once, rising; an author in one keeps its entry, in both has the merge. The room beyond stays; a refusal leaves out as
 * it was. Numbers 0, 1, 20 (for f, then g), 21. */
snowknoll_count_answer snowknoll_merge_frontiers(
    const uint8_t *keys, size_t keys_length, const uint8_t *ids, size_t ids_length, const uint16_t *rows,
    size_t rows_length, const uint16_t *deps, size_t deps_length, const uint16_t *branches, size_t branches_length,
    snowknoll_counts counts, const uint16_t *f, size_t f_length, const uint16_t *g, size_t g_length,
    uint16_t *out, size_t out_length);

/* Appends a row to its author's entry in the frontier that the first used numbers are, making the entry where there is
 * none: the merge with growing at that row stands at the start of the list afterwards. Answers how many numbers it has.
 * The room beyond stays; a refusal leaves the list as it was. Numbers 0, 1, 20 (used above the length included), 19 (row
 * 0 or above the count), 21. */
snowknoll_count_answer snowknoll_append_entry(
    const uint8_t *keys, size_t keys_length, const uint8_t *ids, size_t ids_length, const uint16_t *rows,
    size_t rows_length, const uint16_t *deps, size_t deps_length, const uint16_t *branches, size_t branches_length,
    snowknoll_counts counts, uint16_t *frontier, size_t frontier_length, size_t used, uint16_t row);

/* Writes the packing list of a frontier to the start of out, and answers how many rows it has: rising, the rows that
 * are, for some entry, its last row or, where it is forked, one of its evidence rows, or happened before any of them, by
 * previous links and dependencies. So whoever gets the messages of the list can check each state. The room beyond stays;
 * a refusal leaves out as it was. Numbers 0, 1, 20, 21. It calls itself as deep as there are rows: leave 512 KiB of stack. */
snowknoll_count_answer snowknoll_packing_list(
    const uint8_t *keys, size_t keys_length, const uint8_t *ids, size_t ids_length, const uint16_t *rows,
    size_t rows_length, const uint16_t *deps, size_t deps_length, const uint16_t *branches, size_t branches_length,
    snowknoll_counts counts, const uint16_t *frontier, size_t frontier_length, uint16_t *out, size_t out_length);

/* Writes what a frontier says by keys and ids to the start of out, an item of kind 3, so that a store with other row
 * numbers can read it, and answers how many bytes it has: 8, and 130 for each entry. The entries rise by key; the phase and
 * the presence byte are 0 or 1, and ids that do not apply are zero bytes. The bytes after it stay; a refusal leaves out as
 * it was. Numbers 0, 1, 20, 21. */
snowknoll_count_answer snowknoll_write_standing(
    const uint8_t *keys, size_t keys_length, const uint8_t *ids, size_t ids_length, const uint16_t *rows,
    size_t rows_length, const uint16_t *deps, size_t deps_length, const uint16_t *branches, size_t branches_length,
    snowknoll_counts counts, const uint16_t *f, size_t f_length, uint8_t *out, size_t out_length);

/* Reads an item of kind 3 into the store's own row numbers: writes the frontier to the start of out, and answers how many
 * numbers it has. The room beyond stays; a refusal leaves out as it was. Numbers 0, 1, then of the layout 2 to 5 in the
 * order of an item that is a message, 6 (a phase or presence byte), 22, 20 (keys that do not rise and bytes not zero where
 * they do not apply included), 21. Each is looked for in all entries before the next. */
snowknoll_count_answer snowknoll_read_standing(
    const uint8_t *keys, size_t keys_length, const uint8_t *ids, size_t ids_length, const uint16_t *rows,
    size_t rows_length, const uint16_t *deps, size_t deps_length, const uint16_t *branches, size_t branches_length,
    snowknoll_counts counts, const uint8_t *item, size_t item_length, uint16_t *out, size_t out_length);

/* Writes the item of these fields to the start of out, and answers how many bytes it has: at least SNOWKNOLL_MIN_ITEM, at
 * most SNOWKNOLL_MAX_ITEM. The dependency ids lie one after the other, 32 bytes each. Reading what was written gives the
 * same fields, and writing what was read, where its mark is 0 or 1, the same bytes. Only the layout is judged: whether the
 * item is admitted is for snowknoll_admit to say. The bytes after it stay; a refusal leaves out as it was. Numbers 0, 2
 * (key or previous id not of 32 bytes, signature not of 64, dependency ids not of 32 each), 3, 6, 21. */
snowknoll_count_answer snowknoll_write_item(
    uint8_t mark, const uint8_t *key, size_t key_length, const uint8_t *previous, size_t previous_length, uint32_t index,
    const uint8_t *payload, size_t payload_length, const uint8_t *dependencies, size_t dependencies_length,
    const uint8_t *signature, size_t signature_length, uint8_t *out, size_t out_length);

/* Writes every branch of a forked state to the start of out, two numbers each, and answers how many numbers it wrote: the
 * rows of its author that follow its last row in the log (all of its rows where last is none) and are no row's previous
 * row, each once, by rising id, and behind each the row on last through which it runs. There are at least two, and each
 * evidence row is one that a branch runs through. The room beyond stays; a refusal leaves out as it was. Numbers 0, 1, 17,
 * 24 (a growing state), 21. Five numbers that are no state are answered 17. */
snowknoll_count_answer snowknoll_branches(
    const uint8_t *keys, size_t keys_length, const uint8_t *ids, size_t ids_length, const uint16_t *rows,
    size_t rows_length, const uint16_t *deps, size_t deps_length, const uint16_t *branches, size_t branches_length,
    snowknoll_counts counts, snowknoll_state state, uint16_t *out, size_t out_length);

/* Admits a release at the desk: an item whose payload is three bytes, the number of a component and the byte 0 or 1, whether
 * its menu starts expanded. Any component number may stand there. It is judged as by snowknoll_admit, with two answers more:
 * 25 for a payload of another length or with another third byte, after 15 and before 16, and 16 where components or expanded
 * has no place for the new row. Done exactly when snowknoll_admit would be, the payload is a release's and both columns have
 * a place. Then all that snowknoll_admit writes is written, and in the new row's place components has the payload's number
 * and expanded its third byte; all other places stay. On every other answer all parts stay, the columns too. Neither the
 * answer nor the store depends on the origin given or on what origins and the columns hold. Numbers 0 to 12, 14 to 16, 25. */
snowknoll_admit_answer snowknoll_desk_admit(
    const uint8_t *item, size_t item_length, uint8_t origin, uint8_t *keys, size_t keys_length,
    uint8_t *ids, size_t ids_length, uint16_t *rows, size_t rows_length, uint16_t *deps, size_t deps_length,
    uint16_t *branches, size_t branches_length, uint8_t *origins, size_t origins_length,
    uint16_t *components, size_t components_length, uint8_t *expanded, size_t expanded_length, snowknoll_counts counts);

/* The current release of a component in the frontier f: its owner's message with the highest index among those at or before
 * the last row of the owner's entry that carry it; with it whether its menu starts expanded, and whether the owner's log is
 * frozen, which is where its entry is forked. No owner, no entry or no such message means none, which is number 0 and row 0.
 * A merge of frontiers at which the owner's log stays growing never lowers the index, none counting 0. Places of the columns
 * beyond the row count, and of owners beyond the 512, are never read. Writes nothing. Numbers 0; 1; 20; 25 (a byte of
 * expanded neither 0 nor 1 in a counted row's place, a column shorter than the row count, owners shorter than 512); 26 (any
 * of the 512 owners above the author count); 27 (a component outside 1 to 512 asked for); in this order. */
snowknoll_release_answer snowknoll_current_release(
    const uint8_t *keys, size_t keys_length, const uint8_t *ids, size_t ids_length, const uint16_t *rows,
    size_t rows_length, const uint16_t *deps, size_t deps_length, const uint16_t *branches, size_t branches_length,
    snowknoll_counts counts, const uint16_t *f, size_t f_length, const uint16_t *components, size_t components_length,
    const uint8_t *expanded, size_t expanded_length, const uint16_t *owners, size_t owners_length, uint16_t component);

/* Salvages a stick: an intake of up to 1,024 items, some damaged, some before those that they build on. The lent store
 * starts empty, whatever its parts hold: no counts go in, and nothing is checked. Each next item is the lowest-numbered one
 * not yet kept that the store, as it then stands, admits; this ends when none is. The store ends with the kept items, each
 * with the origin 0; clean begins with their bytes in that order, an intake every item of which an empty store admits; and
 * list begins with two numbers for each item of the stick, in the stick's order: 0 and its place where it is kept, or else
 * the answer and row that the final store gives it (8 for a repeat). Where a length is above 6,253 or the stick ends inside
 * an item, the rest counts as one item, with 3 or 2. Room beyond stays. Numbers 0;
 *   3 the stick has more than 1,024 items;
 *  21 clean is shorter than the stick, or list than two numbers an item. */
snowknoll_salvage_answer snowknoll_salvage(
    const uint8_t *stick, size_t stick_length, uint8_t *keys, size_t keys_length, uint8_t *ids, size_t ids_length,
    uint16_t *rows, size_t rows_length, uint16_t *deps, size_t deps_length, uint16_t *branches, size_t branches_length,
    uint8_t *origins, size_t origins_length, uint8_t *clean, size_t clean_length, uint16_t *list, size_t list_length);

#ifdef __cplusplus
}
#endif

#endif
