/*
 * What a plain flip list, a plain walk and the plain program share: the lent tables, the judgement of reason 12, and one flip. Where a clause
 * comes to one true literal, or to two, it is scanned for the other one.
 */
#ifndef PLAIN_TABLES_H
#define PLAIN_TABLES_H

#include "plain.h"

/* What was lent, with the counts that go beside it. */
struct tables {
    uint32_t terms, clauses, literal_count, uncovered;
    const uint64_t *names;
    uint32_t *values;
    const uint16_t *starts, *literals, *occurrence_starts, *occurrences;
    uint16_t *trues, *breaks, *list, *places;
    const uint8_t *marks;
};

static int is_true(const struct tables *t, uint32_t literal)
{
    uint32_t term = literal / 2;
    return (t->values[term / 32] >> term % 32 & 1) != (literal & 1);
}

/* --- the judgement of reason 12 --- */

static int counts_fit(const struct tables *t)
{
    return t->terms <= NGI_TERMS && t->clauses >= 1 && t->clauses <= NGI_CLAUSES && t->literal_count <= NGI_LITERALS &&
           t->uncovered <= NGI_CLAUSES;
}

/* One to eight bytes of 33 to 125, and none after the first unused one. */
static int is_name(uint64_t name)
{
    if (name == 0)
        return 0;
    for (; name != 0; name >>= 8)
        if ((name & 255) < 33 || (name & 255) > 125)
            return 0;
    return 1;
}

/* Puts each name into a hash table; 0 is no name, so it marks a free slot. */
static int names_fit(const struct tables *t)
{
    uint64_t slots[2 * NGI_TERMS] = {0};
    for (uint32_t term = 0; term < t->terms; term++) {
        uint64_t name = t->names[term];
        uint32_t slot = (uint32_t)(name * 0x9e3779b97f4a7c15u >> 52);
        if (!is_name(name))
            return 0;
        for (; slots[slot] != 0; slot = (slot + 1) % (2 * NGI_TERMS))
            if (slots[slot] == name)
                return 0;
        slots[slot] = name;
    }
    return 1;
}

static int starts_fit(const struct tables *t)
{
    if (t->starts[0] != 0)
        return 0;
    for (uint32_t clause = 0; clause < t->clauses; clause++)
        if (t->starts[clause] >= t->starts[clause + 1])
            return 0;
    return t->starts[t->clauses] == t->literal_count;
}

/* A term's stamp is one more than the last clause that names it. */
static int literals_fit(const struct tables *t)
{
    uint16_t stamps[NGI_TERMS] = {0};
    for (uint32_t clause = 0; clause < t->clauses; clause++)
        for (uint32_t at = t->starts[clause]; at < t->starts[clause + 1]; at++) {
            uint32_t literal = t->literals[at];
            if (literal >= 2 * t->terms || stamps[literal / 2] == clause + 1)
                return 0;
            stamps[literal / 2] = (uint16_t)(clause + 1);
        }
    return 1;
}

/* Each clause must stand next in the run of each of its literals. */
static int occurrences_fit(const struct tables *t)
{
    uint16_t next[2 * NGI_TERMS + 1] = {0};
    for (uint32_t at = 0; at < t->literal_count; at++)
        next[t->literals[at] + 1]++;
    for (uint32_t literal = 0; literal < 2 * t->terms; literal++)
        next[literal + 1] += next[literal];
    for (uint32_t literal = 0; literal <= 2 * t->terms; literal++)
        if (t->occurrence_starts[literal] != next[literal])
            return 0;
    for (uint32_t clause = 0; clause < t->clauses; clause++)
        for (uint32_t at = t->starts[clause]; at < t->starts[clause + 1]; at++)
            if (t->occurrences[next[t->literals[at]]++] != clause)
                return 0;
    return 1;
}

static int true_and_break_counts_fit(const struct tables *t)
{
    uint16_t breaks[NGI_TERMS] = {0};
    for (uint32_t clause = 0; clause < t->clauses; clause++) {
        uint32_t trues = 0, last = 0;
        for (uint32_t at = t->starts[clause]; at < t->starts[clause + 1]; at++)
            if (is_true(t, t->literals[at])) {
                trues++;
                last = t->literals[at];
            }
        if (trues != t->trues[clause])
            return 0;
        if (trues == 1)
            breaks[last / 2]++;
    }
    for (uint32_t term = 0; term < t->terms; term++)
        if (breaks[term] != t->breaks[term])
            return 0;
    return 1;
}

/* Each listed clause is uncovered and has its own place, and there are as many as uncovered clauses; a covered one has place 0. */
static int list_fits(const struct tables *t)
{
    uint32_t uncovered = 0;
    for (uint32_t place = 0; place < t->uncovered; place++) {
        uint32_t clause = t->list[place];
        if (clause >= t->clauses || t->trues[clause] != 0 || t->places[clause] != place)
            return 0;
    }
    for (uint32_t clause = 0; clause < t->clauses; clause++)
        if (t->trues[clause] == 0)
            uncovered++;
        else if (t->places[clause] != 0)
            return 0;
    return uncovered == t->uncovered;
}

/* Mark 1 is a pin at 0, mark 2 a pin at 1. */
static int marks_fit(const struct tables *t)
{
    for (uint32_t term = 0; term < t->terms; term++)
        if (t->marks[term] > 2 || (t->marks[term] != 0 && is_true(t, 2 * term) != t->marks[term] - 1))
            return 0;
    return 1;
}

static int zeros(const uint16_t *table, uint32_t from, uint32_t to)
{
    uint16_t seen = 0;
    for (uint32_t at = from; at < to; at++)
        seen |= table[at];
    return seen == 0;
}

static int spare_terms_are_zero(const struct tables *t)
{
    uint64_t seen = 0;
    for (uint32_t term = t->terms; term < NGI_TERMS; term++)
        seen |= t->names[term] | (t->values[term / 32] >> term % 32 & 1) | t->marks[term];
    return seen == 0;
}

static int rest_is_zero(const struct tables *t)
{
    return spare_terms_are_zero(t) && zeros(t->starts, t->clauses + 1, NGI_STARTS_SIZE) &&
           zeros(t->literals, t->literal_count, NGI_LITERALS_SIZE) &&
           zeros(t->occurrence_starts, 2 * t->terms + 1, NGI_OCCURRENCE_STARTS_SIZE) &&
           zeros(t->occurrences, t->literal_count, NGI_OCCURRENCES_SIZE) && zeros(t->trues, t->clauses, NGI_TRUE_COUNTS_SIZE) &&
           zeros(t->breaks, t->terms, NGI_BREAK_COUNTS_SIZE) && zeros(t->list, t->uncovered, NGI_UNCOVERED_LIST_SIZE) &&
           zeros(t->places, t->clauses, NGI_PLACES_SIZE);
}

static inline int agree(const struct tables *t)
{
    return counts_fit(t) && names_fit(t) && starts_fit(t) && literals_fit(t) && occurrences_fit(t) && true_and_break_counts_fit(t) &&
           list_fits(t) && marks_fit(t) && rest_is_zero(t);
}

/* --- one flip --- */

/* The freed slot gets the last entry. */
static void leave_list(struct tables *t, uint16_t clause)
{
    uint16_t place = t->places[clause], last = t->list[--t->uncovered];
    t->list[place] = last;
    t->places[last] = place;
    t->list[t->uncovered] = 0;
    t->places[clause] = 0;
}

static void enter_list(struct tables *t, uint16_t clause)
{
    t->places[clause] = (uint16_t)t->uncovered;
    t->list[t->uncovered++] = clause;
}

/* The term of the clause's true literal that is not the given term's. */
static uint32_t other_true_term(const struct tables *t, uint16_t clause, uint32_t term)
{
    uint32_t at = t->starts[clause];
    while (t->literals[at] / 2 == term || !is_true(t, t->literals[at]))
        at++;
    return t->literals[at] / 2;
}

static void gain(struct tables *t, uint32_t term, uint32_t literal)
{
    for (uint32_t at = t->occurrence_starts[literal]; at < t->occurrence_starts[literal + 1]; at++) {
        uint16_t clause = t->occurrences[at], before = t->trues[clause]++;
        if (before == 0) {
            leave_list(t, clause);
            t->breaks[term]++;
        } else if (before == 1) {
            t->breaks[other_true_term(t, clause, term)]--;
        }
    }
}

static void lose(struct tables *t, uint32_t term, uint32_t literal)
{
    for (uint32_t at = t->occurrence_starts[literal]; at < t->occurrence_starts[literal + 1]; at++) {
        uint16_t clause = t->occurrences[at], left = --t->trues[clause];
        if (left == 0) {
            t->breaks[term]--;
            enter_list(t, clause);
        } else if (left == 1) {
            t->breaks[other_true_term(t, clause, term)]++;
        }
    }
}

static void flip(struct tables *t, uint32_t term)
{
    uint32_t becomes_false = 2 * term + !is_true(t, 2 * term);
    t->values[term / 32] ^= (uint32_t)1 << term % 32;
    gain(t, term, becomes_false ^ 1);
    lose(t, term, becomes_false);
}

#endif
