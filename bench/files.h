/* Files for flips, walks and programs, made in tables that hold only 0. Random numbers come from a fixed seed, so a file is the same in each run. */
#ifndef FILES_H
#define FILES_H

#include <string.h>

#include "common.h"

/* --- clauses --- */

static void add_literal(struct tables *t, uint32_t literal)
{
    if (t->literals == NGI_LITERALS)
        fail("too many literals");
    t->lent.literals_table[t->literals++] = (uint16_t)literal;
}

static void end_clause(struct tables *t)
{
    if (t->clauses == NGI_CLAUSES)
        fail("too many clauses");
    t->lent.starts[++t->clauses] = (uint16_t)t->literals;
}

/* Whether a term stands in the clause that is not yet ended. */
static int stands(const struct tables *t, uint32_t term)
{
    for (uint32_t at = t->lent.starts[t->clauses]; at < t->literals; at++)
        if (t->lent.literals_table[at] / 2 == term)
            return 1;
    return 0;
}

static void draw_clause(struct tables *t, uint32_t width)
{
    for (uint32_t drawn = 0; drawn < width; drawn++) {
        uint32_t term = random_below(t->terms);
        while (stands(t, term))
            term = random_below(t->terms);
        add_literal(t, 2 * term + random_below(2));
    }
    end_clause(t);
}

/* --- what is worked out from the clauses --- */

/* Names of two bytes. */
static void name_terms(struct tables *t)
{
    for (uint32_t term = 0; term < t->terms; term++)
        t->lent.names[term] = (33 + term % 93) | (33 + term / 93) << 8;
}

static void draw_values(struct tables *t)
{
    for (uint32_t term = 0; term < t->terms; term++)
        t->lent.values[term / 32] |= random_below(2) << term % 32;
}

/* Clause numbers rise within a literal, since the clauses are gone through in order. */
static void place_occurrences(struct tables *t)
{
    static uint16_t next[NGI_OCCURRENCE_STARTS_SIZE];
    for (uint32_t at = 0; at < t->literals; at++)
        t->lent.occurrence_starts[t->lent.literals_table[at] + 1]++;
    for (uint32_t literal = 0; literal < 2 * t->terms; literal++)
        t->lent.occurrence_starts[literal + 1] += t->lent.occurrence_starts[literal];
    memcpy(next, t->lent.occurrence_starts, sizeof next);
    for (uint32_t clause = 0; clause < t->clauses; clause++)
        for (uint32_t at = t->lent.starts[clause]; at < t->lent.starts[clause + 1]; at++)
            t->lent.occurrences[next[t->lent.literals_table[at]]++] = (uint16_t)clause;
}

static void count_afresh(struct tables *t)
{
    for (uint32_t clause = 0; clause < t->clauses; clause++) {
        uint32_t last = 0;
        for (uint32_t at = t->lent.starts[clause]; at < t->lent.starts[clause + 1]; at++) {
            uint32_t literal = t->lent.literals_table[at], term = literal / 2;
            if ((t->lent.values[term / 32] >> term % 32 & 1) != (literal & 1)) {
                t->lent.true_counts[clause]++;
                last = term;
            }
        }
        if (t->lent.true_counts[clause] == 1)
            t->lent.break_counts[last]++;
        if (t->lent.true_counts[clause] == 0) {
            t->lent.places[clause] = (uint16_t)t->uncovered;
            t->lent.uncovered_list[t->uncovered++] = (uint16_t)clause;
        }
    }
}

static void finish_file(struct tables *t)
{
    name_terms(t);
    draw_values(t);
    place_occurrences(t);
    count_afresh(t);
}

/* --- files --- */

/* Three different terms to a clause, each negated or not. */
static void make_three_sat(struct tables *t, uint32_t terms, uint32_t clauses)
{
    t->terms = terms;
    while (t->clauses < clauses)
        draw_clause(t, 3);
    finish_file(t);
}

/* From 2 to most, few more often than many. */
static uint32_t draw_parents(uint32_t most)
{
    uint32_t one = random_below(most - 1), other = random_below(most - 1);
    return 2 + (one < other ? one : other);
}

static void keep_apart(struct tables *t, uint32_t term, uint32_t other)
{
    add_literal(t, 2 * term + 1);
    add_literal(t, 2 * other + 1);
    end_clause(t);
}

/* An orphan goes under at least one of its parents, and under no two. Each choice is a term. */
static void add_orphan(struct tables *t, uint32_t parents)
{
    uint32_t first = t->terms;
    t->terms += parents;
    for (uint32_t term = first; term < t->terms; term++)
        add_literal(t, 2 * term);
    end_clause(t);
    for (uint32_t term = first; term < t->terms; term++)
        for (uint32_t other = term + 1; other < t->terms; other++)
            keep_apart(t, term, other);
}

/* Orphans with 2 to most parents, the last one with as many as are left; then choices of two orphans that never go together. */
static inline void make_placement(struct tables *t, uint32_t terms, uint32_t clauses, uint32_t most)
{
    static uint32_t first[NGI_TERMS + 1];
    uint32_t orphans = 0;
    while (t->terms < terms) {
        uint32_t parents = draw_parents(most), left = terms - t->terms;
        add_orphan(t, parents < left ? parents : left);
        first[++orphans] = t->terms;
    }
    while (t->clauses < clauses) {
        uint32_t one = random_below(orphans), other = random_below(orphans);
        if (one != other) {
            uint32_t term = first[one] + random_below(first[one + 1] - first[one]);
            keep_apart(t, term, first[other] + random_below(first[other + 1] - first[other]));
        }
    }
    finish_file(t);
}

/* KIND is 3-SAT, for clauses of three random literals, or 2..MOST, for orphans with that many parents to choose from. */
static inline void make_file(struct tables *t, const char *kind, uint32_t terms, uint32_t clauses)
{
    memset(t, 0, sizeof *t);
    if (strcmp(kind, "3-SAT") == 0)
        make_three_sat(t, terms, clauses);
    else
        make_placement(t, terms, clauses, number(kind + sizeof "2.." - 1));
}

#endif
