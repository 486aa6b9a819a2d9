/* What a measure uses: two functions that do the same work are timed in turn, and a line says how they compare. */
#ifndef TURNS_H
#define TURNS_H

/* Calls ours and theirs in turn, so many calls to a turn, for about a second and for 25 turns at least. Prints the
 * work, the time of a call in the shortest turn of each, and the ratio, ours to the other's. */
void compare(const char *work, void (*ours)(void), const char *other, void (*theirs)(void), int calls);

/* The same for ours beside itself without a part of its work. There is no call that leaves it out: up_to does what comes
 * before it, with does the same and the part, and what the part takes is the difference. */
void compare_without(const char *work, void (*ours)(void), const char *part, void (*up_to)(void), void (*with)(void),
                     int calls);

/* Prints that there is no other here to compare with. */
void skip(const char *work, const char *other);

/* Says what is wrong and ends the measure, unless it holds. */
void hold(int holds, const char *what);

#endif
