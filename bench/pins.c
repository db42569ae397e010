/*
 * Flip lists of one entry through ngi_flip, and pins through ngi_pin, on random files of three literals to a clause. Both turn the same terms,
 * one in each call: a term is pinned at the value that it does not have.
 *
 *   pins check TERMS CLAUSES             gives both the same terms; the status is 0 where answers and tables are the same throughout, but for
 *                                        marks, which are those of the pins
 *   pins time TERMS CLAUSES              microseconds for a list of one entry, for a pin, and how many times as long the pin takes
 *   pins run TERMS CLAUSES SIDE CALLS    so many calls by one side, list or pin, so that instructions can be counted
 */
#include <stdint.h>
#include <stdio.h>
#include <string.h>

#include "common.h"
#include "files.h"

enum { TERMS_DRAWN = 64, CALLS_TIMED = 64 };
enum { LIST, PIN }; /* the sides, in the order in which they take turns */

static struct tables turned[SIDES];
static uint32_t made[SIDES]; /* calls */
static uint16_t drawn[TERMS_DRAWN];

static void draw_terms(uint32_t terms)
{
    for (int at = 0; at < TERMS_DRAWN; at++)
        drawn[at] = (uint16_t)random_below(terms);
}

/* --- calls --- */

static uint32_t value_of(const struct tables *t, uint32_t term)
{
    return t->lent.values[term / 32] >> term % 32 & 1;
}

static ngi_flip_answer flip_one(struct tables *t, uint16_t term)
{
    return ngi_flip(&term, 1, t->terms, t->clauses, t->literals, t->uncovered, NGI_LEND(t->lent));
}

static ngi_flip_answer pin_at_other(struct tables *t, uint16_t term)
{
    return ngi_pin(term, !value_of(t, term), t->terms, t->clauses, t->literals, t->uncovered, NGI_LEND(t->lent));
}

/* The next of the drawn terms; a refusal ends the program. */
static void turn_by(int side, uint32_t flips)
{
    struct tables *t = &turned[side];
    uint16_t term = drawn[made[side]++ % TERMS_DRAWN];
    ngi_flip_answer answer = side == LIST ? flip_one(t, term) : pin_at_other(t, term);
    (void)flips;
    if (answer.result != 1)
        fail("the call is refused");
    t->uncovered = answer.uncovered;
}

/* Marks stand at the terms drawn so far, each for the value that its term has now. */
static int marks_are_those_of_the_pins(void)
{
    uint8_t marks[NGI_MARKS_SIZE] = {0};
    for (uint32_t at = 0; at < made[PIN] && at < TERMS_DRAWN; at++)
        marks[drawn[at]] = (uint8_t)(1 + value_of(&turned[PIN], drawn[at]));
    return memcmp(turned[PIN].lent.marks, marks, sizeof marks) == 0;
}

static int others_are_the_same(void)
{
    static struct tables unmarked;
    memcpy(&unmarked, &turned[PIN], sizeof unmarked);
    memset(unmarked.lent.marks, 0, sizeof unmarked.lent.marks);
    return memcmp(&turned[LIST], &unmarked, sizeof unmarked) == 0;
}

static int check(void)
{
    for (int calls = 0; calls < 2 * TERMS_DRAWN; calls++) {
        turn_by(LIST, 1);
        turn_by(PIN, 1);
        if (!marks_are_those_of_the_pins())
            fail("the marks are not those of the pins");
        if (!others_are_the_same())
            fail("the two leave different tables");
    }
    return 0;
}

static int time_both(void)
{
    double least[SIDES] = {0};
    for (int round = 0; round < ROUNDS; round++)
        take_turns(turn_by, 1, CALLS_TIMED, least);
    print_times(least);
    return 0;
}

static int run(int side, uint32_t calls)
{
    while (made[side] < calls)
        turn_by(side, 1);
    return 0;
}

int main(int count, char **words)
{
    if (count >= 4) {
        make_three_sat(&turned[LIST], number(words[2]), number(words[3]));
        memcpy(&turned[PIN], &turned[LIST], sizeof *turned);
        draw_terms(number(words[2]));
    }
    if (count == 4 && strcmp(words[1], "check") == 0)
        return check();
    if (count == 4 && strcmp(words[1], "time") == 0)
        return time_both();
    if (count == 6 && strcmp(words[1], "run") == 0)
        return run(strcmp(words[4], "list") == 0 ? LIST : PIN, number(words[5]));
    printf("usage: pins check|time TERMS CLAUSES, or pins run TERMS CLAUSES list|pin CALLS\n");
    return 2;
}
