/* ngi_walk as one would first write it in C. */
#include "plain_walker.h"

enum { FOUND = 1, GAVE_UP = 2 };

static int in_range(const struct walker *w)
{
    return w->state != 0 && w->flips <= MOST_FLIPS && w->walks >= 1 && w->walks <= MOST_WALKS && w->bias <= SURE && w->even <= 1;
}

static ngi_walk_answer answer(const struct walker *w, const struct tables *t, uint32_t result, uint32_t reason)
{
    return (ngi_walk_answer){result, reason, w->walks_begun, w->flips_made, t->terms, t->clauses, t->literal_count, t->uncovered};
}

ngi_walk_answer plain_walk(uint32_t seed, uint32_t flips, uint32_t walks, uint32_t bias, uint32_t even,
                           uint32_t terms, uint32_t clauses, uint32_t literals, uint32_t uncovered,
                           NGI_TABLE_PARAMETERS(const, NGI_WRITTEN, const))
{
    struct walker w = {seed, flips, walks, bias, even, 0, 0};
    struct tables t = {terms, clauses, literals, uncovered, TABLES};
    if (!ARE_FULL)
        return answer(&w, &t, 0, NGI_TABLE_TOO_SHORT);
    if (!in_range(&w))
        return answer(&w, &t, 0, NGI_OUT_OF_RANGE);
    if (!agree(&t))
        return answer(&w, &t, 0, NGI_TABLES_DISAGREE);
    do
        walk_once(&w, &t);
    while (t.uncovered > 0 && w.walks_begun < walks);
    return answer(&w, &t, t.uncovered == 0 ? FOUND : GAVE_UP, NGI_NO_REASON);
}
