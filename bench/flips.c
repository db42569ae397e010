/*
 * Flips through ngi_flip and through the plain C version, on random files of three literals to a clause.
 *
 *   flips check TERMS CLAUSES             gives both the same lists, the last with a pinned term; the status is 0 where answers and tables
 *                                         are the same throughout, and that list alone is refused
 *   flips time TERMS CLAUSES              flips per second, and microseconds for an empty list: of each ngi_flip's, the plain version's
 *                                         and how many times as quick ngi_flip is
 *   flips run TERMS CLAUSES SIDE FLIPS    one list of at most 4,096 flips by one side, ngi or plain, so that instructions can be counted
 */
#include <stdint.h>
#include <stdio.h>
#include <string.h>

#include "common.h"
#include "files.h"
#include "plain.h"

enum { LISTS_CHECKED = 8, LISTS_TIMED = 4, EMPTY_LISTS_TIMED = 64, LONGEST_RUN = 4096 };

typedef __typeof__(ngi_flip) flip_function;

static struct tables one, other;
static uint16_t list[NGI_LIST];

static void draw_list(uint32_t terms, size_t length)
{
    for (size_t at = 0; at < length; at++)
        list[at] = (uint16_t)random_below(terms);
}

/* --- calls --- */

/* The first flips of the list. */
static ngi_flip_answer give(flip_function *flip, struct tables *t, size_t flips)
{
    return flip(list, flips, t->terms, t->clauses, t->literals, t->uncovered, NGI_LEND(t->lent));
}

/* The same, where a refusal ends the program. */
static void apply(flip_function *flip, struct tables *t, size_t flips)
{
    ngi_flip_answer answer = give(flip, t, flips);
    if (answer.result != 1)
        fail("the list is refused");
    t->terms = answer.terms;
    t->clauses = answer.clauses;
    t->literals = answer.literals;
    t->uncovered = answer.uncovered;
}

/* The list whose last term is pinned. */
static void check_refusal(void)
{
    uint16_t last = list[NGI_LIST - 1];
    ngi_flip_answer pinned = ngi_pin(last, 1, one.terms, one.clauses, one.literals, one.uncovered, NGI_LEND(one.lent)), answer, other_answer;
    one.uncovered = pinned.uncovered;
    memcpy(&other, &one, sizeof one);
    answer = give(ngi_flip, &one, NGI_LIST);
    other_answer = give(plain_flip, &other, NGI_LIST);
    if (answer.reason != NGI_PINNED_TERM || memcmp(&answer, &other_answer, sizeof answer) != 0)
        fail("the two answer differently, or not that a term is pinned");
    if (memcmp(&one, &other, sizeof one) != 0)
        fail("the two leave different tables");
}

static int check(void)
{
    memcpy(&other, &one, sizeof one);
    for (int lists = 0; lists < LISTS_CHECKED; lists++) {
        draw_list(one.terms, NGI_LIST);
        apply(ngi_flip, &one, NGI_LIST);
        apply(plain_flip, &other, NGI_LIST);
        if (memcmp(&one, &other, sizeof one) != 0)
            fail("the two leave different tables");
    }
    check_refusal();
    return 0;
}

static void apply_by(int side, uint32_t flips)
{
    if (side == NGI)
        apply(ngi_flip, &one, flips);
    else
        apply(plain_flip, &other, flips);
}

static int time_both(void)
{
    memcpy(&other, &one, sizeof one);
    draw_list(one.terms, NGI_LIST);
    return time_flips(apply_by, NGI_LIST, LISTS_TIMED, EMPTY_LISTS_TIMED);
}

/* The list drawn has the same length for any number of flips, so that nothing but the flips differs. */
static int run(const char *side, uint32_t flips)
{
    draw_list(one.terms, LONGEST_RUN);
    apply(strcmp(side, "ngi") == 0 ? ngi_flip : plain_flip, &one, flips);
    return 0;
}

int main(int count, char **words)
{
    if (count >= 4)
        make_three_sat(&one, number(words[2]), number(words[3]));
    if (count == 4 && strcmp(words[1], "check") == 0)
        return check();
    if (count == 4 && strcmp(words[1], "time") == 0)
        return time_both();
    if (count == 6 && strcmp(words[1], "run") == 0 && number(words[5]) <= LONGEST_RUN)
        return run(words[4], number(words[5]));
    printf("usage: flips check|time TERMS CLAUSES, or flips run TERMS CLAUSES ngi|plain FLIPS\n");
    return 2;
}
