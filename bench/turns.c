/* The clock, the turns and the lines of the measures. It is compiled for the machine that it runs on. */
#define _XOPEN_SOURCE 700
#include "turns.h"

#include <stdio.h>
#include <stdlib.h>
#include <sys/resource.h>
#include <time.h>

/* A time in nanoseconds. */
static double nanoseconds(struct timeval time)
{
    return 1e9 * (double)time.tv_sec + 1e3 * (double)time.tv_usec;
}

/* The processor time of this program and of those that it ran, in nanoseconds: what else the machine does is not counted. */
static double now(void)
{
    struct timespec at;
    struct rusage ran;
    clock_gettime(CLOCK_PROCESS_CPUTIME_ID, &at);
    getrusage(RUSAGE_CHILDREN, &ran);
    return 1e9 * (double)at.tv_sec + (double)at.tv_nsec + nanoseconds(ran.ru_utime) + nanoseconds(ran.ru_stime);
}

/* Makes a turn, and keeps the shorter of its time and the shortest so far. */
static void turn(void (*work)(void), int calls, double *shortest)
{
    double start = now();
    for (int k = 0; k < calls; k++) work();
    double time = (now() - start) / calls;
    if (time < *shortest) *shortest = time;
}

void compare(const char *work, void (*ours)(void), const char *other, void (*theirs)(void), int calls)
{
    double first = 1e18, second = 1e18, end = now() + 1e9;
    for (int turns = 0; turns < 25 || now() < end; turns++) {
        turn(ours, calls, &first);
        turn(theirs, calls, &second);
    }
    printf("%s: ours %.2f us, %s %.2f us, ratio %.3f\n", work, first / 1e3, other, second / 1e3, first / second);
}

void compare_without(const char *work, void (*ours)(void), const char *part, void (*up_to)(void), void (*with)(void),
                     int calls)
{
    double whole = 1e18, shorter = 1e18, longer = 1e18, end = now() + 1e9;
    for (int turns = 0; turns < 25 || now() < end; turns++) {
        turn(ours, calls, &whole);
        turn(up_to, calls, &shorter);
        turn(with, calls, &longer);
    }
    double without = whole - (longer - shorter);
    printf("%s: ours %.2f us, without %s %.2f us, ratio %.3f\n", work, whole / 1e3, part, without / 1e3, whole / without);
}

void skip(const char *work, const char *other)
{
    printf("%s: skipped, there is no %s here\n", work, other);
}

void hold(int holds, const char *what)
{
    if (holds) return;
    printf("wrong: %s\n", what);
    exit(1);
}
