/* What the programs of the benchmark share: the lent tables with their counts, random numbers, the clock and the command line. */
#ifndef COMMON_H
#define COMMON_H

#include <stdint.h>
#include <stdio.h>
#include <stdlib.h>
#include <time.h>

#include "ngiyarumba.h"

struct tables {
    uint32_t terms, clauses, literals, uncovered;
    ngi_tables lent;
};

static _Noreturn void fail(const char *why)
{
    printf("%s\n", why);
    exit(1);
}

/* Knuth's 64-bit linear congruence; the low bits, which are the least random, are left out. */
static uint32_t random_below(uint32_t bound)
{
    static uint64_t state = 1;
    state = state * 6364136223846793005u + 1442695040888963407u;
    return (uint32_t)(state >> 33) % bound;
}

static double seconds(void)
{
    struct timespec now;
    clock_gettime(CLOCK_MONOTONIC, &now);
    return (double)now.tv_sec + 1e-9 * (double)now.tv_nsec;
}

/* 0 stands for no time yet. */
static void keep_least(double *least, double each)
{
    if (*least == 0 || each < *least)
        *least = each;
}

enum { NGI, PLAIN, SIDES };
enum { ROUNDS = 5 };

/* What is timed: one call by a side, with so many flips where it makes any. */
typedef void timed_call(int side, uint32_t flips);

/* So many calls by each side. The two take turns, so that what slows the machine slows both; of one call, the least seconds so far are kept. */
static void take_turns(timed_call *call, uint32_t flips, int calls, double *least)
{
    for (int side = 0; side < SIDES; side++) {
        double start = seconds();
        for (int done = 0; done < calls; done++)
            call(side, flips);
        keep_least(&least[side], (seconds() - start) / calls);
    }
}

/* Microseconds for a call: the first side's, the second's, and how many times as quick the first is. */
static void print_times(const double *least)
{
    printf("%.1f %.1f %.2f\n", 1e6 * least[NGI], 1e6 * least[PLAIN], least[PLAIN] / least[NGI]);
}

/* Flips per second, by calls with so many flips, and microseconds for a call with none. */
static inline int time_flips(timed_call *call, uint32_t flips, int calls, int empty_calls)
{
    double full[SIDES] = {0}, empty[SIDES] = {0};
    for (int round = 0; round < ROUNDS; round++) {
        take_turns(call, flips, calls, full);
        take_turns(call, 0, empty_calls, empty);
    }
    printf("%.0f %.0f %.2f ", flips / full[NGI], flips / full[PLAIN], full[PLAIN] / full[NGI]);
    print_times(empty);
    return 0;
}

static uint32_t number(const char *word)
{
    return (uint32_t)strtol(word, NULL, 10);
}

#endif
