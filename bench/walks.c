/*
 * Walks through ngi_walk and through the plain C version. KIND is as in files.h; EVEN is 0 or 1, as the walk takes it.
 *
 *   walks check KIND TERMS CLAUSES EVEN             gives both the same orders, on this file, on this with some terms pinned, and on an easier
 *                                                   one; the status is 0 where answers and tables are the same throughout, given up on this,
 *                                                   found on the easier
 *   walks time KIND TERMS CLAUSES EVEN              flips per second, and microseconds for a walk of no flips: of each ngi_walk's, the plain
 *                                                   version's and how many times as quick ngi_walk is
 *   walks run KIND TERMS CLAUSES EVEN SIDE FLIPS    one walk by one side, ngi or plain, so that instructions can be counted; none makes no
 *                                                   walk. The status is 0 where all its flips are made
 */
#include <stdint.h>
#include <stdio.h>
#include <string.h>

#include "common.h"
#include "files.h"
#include "plain.h"

enum { REFUSED = 0, FOUND = 1, GAVE_UP = 2 };
enum { SEED = 1, BIAS = 400, SEEDS_CHECKED = 8, PINNED_ONE_IN = 16, FLIPS_TIMED = 100000, WITHOUT_FLIPS_TIMED = 64 };

typedef __typeof__(ngi_walk) walk_function;

struct order {
    uint32_t seed, flips, walks, bias, even;
};

static struct tables one, other;
static uint32_t even; /* of every walk, but one that is refused for it */

/* --- calls --- */

static ngi_walk_answer walk(walk_function *by, struct tables *t, struct order o)
{
    ngi_walk_answer answer = by(o.seed, o.flips, o.walks, o.bias, o.even, t->terms, t->clauses, t->literals, t->uncovered, NGI_LEND(t->lent));
    t->uncovered = answer.uncovered;
    return answer;
}

/* A walk that makes all its flips. */
static void walk_on(walk_function *by, struct tables *t, uint32_t flips)
{
    ngi_walk_answer answer = walk(by, t, (struct order){SEED, flips, 1, BIAS, even});
    if (answer.result != GAVE_UP || answer.flips != flips)
        fail("the walk is refused, or finds before its flips are made");
}

static void walk_by_both(struct order o, uint32_t result)
{
    ngi_walk_answer answer, other_answer;
    memcpy(&other, &one, sizeof one);
    answer = walk(ngi_walk, &one, o);
    other_answer = walk(plain_walk, &other, o);
    if (memcmp(&answer, &other_answer, sizeof answer) != 0)
        fail("the two answer differently");
    if (memcmp(&one, &other, sizeof one) != 0)
        fail("the two leave different tables");
    if (answer.result != result)
        fail("found, given up or refused where it should not be");
}

static void walk_by_both_each(const struct order *orders, size_t count, uint32_t result)
{
    for (size_t at = 0; at < count; at++)
        walk_by_both(orders[at], result);
}

static void pin_some(void)
{
    for (uint32_t term = 0; term < one.terms; term += PINNED_ONE_IN) {
        ngi_flip_answer answer = ngi_pin(term, term / PINNED_ONE_IN % 2, one.terms, one.clauses, one.literals, one.uncovered, NGI_LEND(one.lent));
        if (answer.result != 1)
            fail("the pin is refused");
        one.uncovered = answer.uncovered;
    }
}

/* The easier file has a quarter of the clauses, or those that its orphans need. */
static int check(const char *kind, uint32_t terms, uint32_t clauses)
{
    const struct order given_up[] = {{1, 0, 1, 400, even}, {2, 1, 3, 400, even}, {3, 4000, 1, 0, even}, {4, 4000, 2, 400, even},
                                     {4294967295, 4000, 1, 1000, even}};
    const struct order refused[] = {{0, 1, 1, 400, even}, {1, 100001, 1, 400, even}, {1, 1, 0, 400, even}, {1, 1, 1001, 400, even},
                                    {1, 1, 1, 1001, even}, {1, 1, 1, 400, 2}};
    walk_by_both_each(given_up, sizeof given_up / sizeof *given_up, GAVE_UP);
    walk_by_both_each(refused, sizeof refused / sizeof *refused, REFUSED);
    pin_some();
    walk_by_both_each(given_up, sizeof given_up / sizeof *given_up, GAVE_UP);
    make_file(&one, kind, terms, clauses / 4);
    for (uint32_t seed = 1; seed <= SEEDS_CHECKED; seed++)
        walk_by_both((struct order){seed, 100000, 1, BIAS, even}, FOUND);
    one.uncovered++;
    walk_by_both((struct order){SEED, 1, 1, BIAS, even}, REFUSED);
    return 0;
}

static void walk_by(int side, uint32_t flips)
{
    if (side == NGI)
        walk_on(ngi_walk, &one, flips);
    else
        walk_on(plain_walk, &other, flips);
}

static int time_both(void)
{
    memcpy(&other, &one, sizeof one);
    return time_flips(walk_by, FLIPS_TIMED, 1, WITHOUT_FLIPS_TIMED);
}

static int run(const char *side, uint32_t flips)
{
    if (strcmp(side, "none") != 0)
        walk_on(strcmp(side, "ngi") == 0 ? ngi_walk : plain_walk, &one, flips);
    return 0;
}

int main(int count, char **words)
{
    if (count >= 6) {
        make_file(&one, words[2], number(words[3]), number(words[4]));
        even = number(words[5]);
    }
    if (count == 6 && strcmp(words[1], "check") == 0)
        return check(words[2], number(words[3]), number(words[4]));
    if (count == 6 && strcmp(words[1], "time") == 0)
        return time_both();
    if (count == 8 && strcmp(words[1], "run") == 0)
        return run(words[6], number(words[7]));
    printf("usage: walks check|time KIND TERMS CLAUSES EVEN, or walks run KIND TERMS CLAUSES EVEN ngi|plain|none FLIPS\n");
    return 2;
}
