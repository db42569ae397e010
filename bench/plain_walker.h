/* One walk, for plain walks and for the plain program: the literals that may be chosen are collected in an array. */
#ifndef PLAIN_WALKER_H
#define PLAIN_WALKER_H

#include <string.h>

#include "plain_tables.h"

enum { MOST_FLIPS = 100000, MOST_WALKS = 1000, SURE = 1000, MOST_DRAWS = 8, NO_LITERAL = 2 * NGI_TERMS };
#define LAST_DRAW 4294967295u

/* The numbers of an order, and how far the walks have come. */
struct walker {
    uint32_t state, flips, walks, bias, even;
    uint32_t flips_made, walks_begun;
};

/* --- draws --- */

static uint32_t draw(struct walker *w)
{
    w->state ^= w->state << 13;
    w->state ^= w->state >> 17;
    w->state ^= w->state << 5;
    return w->state;
}

/* One of so many numbers, in the order's mode. */
static uint32_t choose(struct walker *w, uint32_t among)
{
    uint32_t drawn = draw(w), bound;
    if (!w->even)
        return drawn % among;
    bound = LAST_DRAW / among * among;
    for (int left = MOST_DRAWS - 1; left > 0 && drawn - 1 >= bound; left--)
        drawn = draw(w);
    return (drawn - 1) % among;
}

/* --- the start of a walk --- */

static void draw_values(struct walker *w, struct tables *t)
{
    for (uint32_t term = 0; term < t->terms; term += 32)
        t->values[term / 32] = draw(w);
    if (t->terms % 32 != 0)
        t->values[t->terms / 32] &= ((uint32_t)1 << t->terms % 32) - 1;
}

/* Each pinned term gets its value in place of the bit drawn for it. */
static void hold_pinned(struct tables *t)
{
    for (uint32_t term = 0; term < t->terms; term++)
        if (t->marks[term] != 0 && is_true(t, 2 * term) != t->marks[term] - 1)
            t->values[term / 32] ^= (uint32_t)1 << term % 32;
}

static void count_afresh(struct tables *t)
{
    t->uncovered = 0;
    memset(t->trues, 0, t->clauses * sizeof *t->trues);
    memset(t->breaks, 0, t->terms * sizeof *t->breaks);
    memset(t->list, 0, t->clauses * sizeof *t->list);
    memset(t->places, 0, t->clauses * sizeof *t->places);
    for (uint32_t clause = 0; clause < t->clauses; clause++) {
        uint32_t last = 0;
        for (uint32_t at = t->starts[clause]; at < t->starts[clause + 1]; at++)
            if (is_true(t, t->literals[at])) {
                t->trues[clause]++;
                last = t->literals[at];
            }
        if (t->trues[clause] == 1)
            t->breaks[last / 2]++;
        if (t->trues[clause] == 0)
            enter_list(t, (uint16_t)clause);
    }
}

/* --- a step --- */

static int is_free(const struct tables *t, uint32_t literal)
{
    return t->marks[literal / 2] == 0;
}

/* The least break count of a clause's free terms, and the literals that have it, in reading order; how many there are. */
static uint32_t collect_ties(const struct tables *t, uint32_t clause, uint32_t *least, uint16_t *ties)
{
    uint32_t count = 0;
    *least = NGI_CLAUSES; /* no break count is above it */
    for (uint32_t at = t->starts[clause]; at < t->starts[clause + 1]; at++) {
        uint32_t breaks = t->breaks[t->literals[at] / 2];
        if (breaks > *least || !is_free(t, t->literals[at]))
            continue;
        if (breaks < *least) {
            *least = breaks;
            count = 0;
        }
        ties[count++] = t->literals[at];
    }
    return count;
}

/* The same for all literals of free terms, whatever their break counts. */
static uint32_t collect_free(const struct tables *t, uint32_t clause, uint16_t *free_ones)
{
    uint32_t count = 0;
    for (uint32_t at = t->starts[clause]; at < t->starts[clause + 1]; at++)
        if (is_free(t, t->literals[at]))
            free_ones[count++] = t->literals[at];
    return count;
}

/* NO_LITERAL where the clause has none of a free term. */
static uint32_t choose_literal(struct walker *w, const struct tables *t, uint32_t clause)
{
    uint16_t candidates[NGI_TERMS];
    uint32_t least, count = collect_ties(t, clause, &least, candidates);
    if (count == 0)
        return NO_LITERAL;
    if (least > 0 && draw(w) % SURE < w->bias) {
        count = collect_free(t, clause, candidates);
        return candidates[choose(w, count)];
    }
    return candidates[count == 1 ? 0 : choose(w, count)];
}

/* Whether there was a term to flip. */
static int step(struct walker *w, struct tables *t)
{
    uint32_t literal = choose_literal(w, t, t->list[choose(w, t->uncovered)]);
    if (literal == NO_LITERAL)
        return 0;
    flip(t, literal / 2);
    w->flips_made++;
    return 1;
}

/* --- a walk --- */

static void walk_once(struct walker *w, struct tables *t)
{
    uint32_t left = w->flips;
    draw_values(w, t);
    hold_pinned(t);
    count_afresh(t);
    while (left > 0 && t->uncovered > 0 && step(w, t))
        left--;
    w->walks_begun++;
}

#endif
