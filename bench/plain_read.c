/* ngi_read as one would first write it in C: names are found by a hash table, and stamps tell which literals the open line has. */
#include <string.h>

#include "plain.h"

enum { LINE_FEED = 10, SPACE = 32, LEAST_OF_NAME = 33, MOST_OF_NAME = 125, TILDE = 126, LONGEST_NAME = 8, SLOTS = 2 * NGI_TERMS };

/* What was lent, and how much of it is in use. */
struct tables {
    uint32_t terms, clauses, literal_count, uncovered;
    uint64_t *names;
    uint32_t *values;
    uint16_t *starts, *literals, *occurrence_starts, *occurrences, *trues, *breaks, *list, *places;
    uint8_t *marks;
};

/* The text from a byte on, the number of its line, and what is known of the terms so far. */
struct reader {
    struct tables *t;
    const uint8_t *at;
    uint32_t line;
    uint16_t *slots;  /* one more than the term whose name belongs here; 0 is a free slot */
    uint32_t *stamps; /* by literal, the last line that took it */
};

/* --- the text: its last byte is 10, so no name and no line runs past its end --- */

static uint32_t read_name(struct reader *r, uint64_t *name)
{
    uint32_t length = 0;
    *name = 0;
    for (; *r->at >= LEAST_OF_NAME && *r->at <= MOST_OF_NAME; r->at++) {
        if (length == LONGEST_NAME)
            return NGI_NINTH_BYTE;
        *name |= (uint64_t)*r->at << 8 * length++;
    }
    return *r->at == SPACE || *r->at == LINE_FEED ? NGI_NO_REASON : NGI_BYTE_NOT_ALLOWED;
}

/* The term of a name, a new one where it was not known; NGI_TERMS where there is no room for a new one. */
static uint32_t term_of(struct reader *r, uint64_t name)
{
    struct tables *t = r->t;
    uint32_t slot = (uint32_t)(name * 0x9e3779b97f4a7c15u >> 52);
    for (; r->slots[slot] != 0; slot = (slot + 1) % SLOTS)
        if (t->names[r->slots[slot] - 1] == name)
            return r->slots[slot] - 1u;
    if (t->terms == NGI_TERMS)
        return NGI_TERMS;
    t->names[t->terms++] = name;
    r->slots[slot] = (uint16_t)t->terms;
    return t->terms - 1;
}

static void next_line(struct reader *r)
{
    r->at++;
    r->line++;
}

/* Gives back the open line's literals, and passes on to the next line. */
static uint32_t drop_line(struct reader *r)
{
    struct tables *t = r->t;
    while (t->literal_count > t->starts[t->clauses])
        t->literals[--t->literal_count] = 0;
    while (*r->at != LINE_FEED)
        r->at++;
    next_line(r);
    return NGI_NO_REASON;
}

static uint32_t take_literal(struct reader *r, uint32_t literal)
{
    if (r->stamps[literal] == r->line)
        return NGI_NO_REASON;
    if (r->stamps[literal ^ 1] == r->line)
        return drop_line(r);
    if (r->t->literal_count == NGI_LITERALS)
        return NGI_TOO_MANY_LITERALS;
    r->t->literals[r->t->literal_count++] = (uint16_t)literal;
    r->stamps[literal] = r->line;
    return NGI_NO_REASON;
}

static uint32_t read_literal(struct reader *r)
{
    uint64_t name;
    uint32_t negated = *r->at == TILDE, reason, term;
    r->at += negated;
    if (negated && (*r->at == SPACE || *r->at == LINE_FEED))
        return drop_line(r);
    reason = read_name(r, &name);
    if (reason != NGI_NO_REASON)
        return reason;
    term = term_of(r, name);
    return term == NGI_TERMS ? NGI_TOO_MANY_TERMS : take_literal(r, 2 * term + negated);
}

/* A line that was not dropped: one without a literal is blank. */
static uint32_t end_line(struct reader *r)
{
    struct tables *t = r->t;
    if (t->literal_count == t->starts[t->clauses])
        return NGI_BLANK_LINE;
    if (t->clauses == NGI_CLAUSES)
        return NGI_TOO_MANY_CLAUSES;
    t->starts[++t->clauses] = (uint16_t)t->literal_count;
    next_line(r);
    return NGI_NO_REASON;
}

static uint32_t read_text(struct reader *r, const uint8_t *end)
{
    uint32_t reason = NGI_NO_REASON;
    while (reason == NGI_NO_REASON && r->at < end)
        if (*r->at == SPACE)
            r->at++;
        else if (*r->at == LINE_FEED)
            reason = end_line(r);
        else
            reason = read_literal(r);
    return reason;
}

/* --- what is worked out from the clauses --- */

/* Clause numbers rise within a literal, since the clauses are gone through in order. */
static void place_occurrences(struct tables *t)
{
    uint16_t next[2 * NGI_TERMS];
    for (uint32_t at = 0; at < t->literal_count; at++)
        t->occurrence_starts[t->literals[at] + 1]++;
    for (uint32_t literal = 0; literal < 2 * t->terms; literal++) {
        next[literal] = t->occurrence_starts[literal];
        t->occurrence_starts[literal + 1] += next[literal];
    }
    for (uint32_t clause = 0; clause < t->clauses; clause++)
        for (uint32_t at = t->starts[clause]; at < t->starts[clause + 1]; at++)
            t->occurrences[next[t->literals[at]]++] = (uint16_t)clause;
}

/* Every value is 0, so the negations are true. */
static void count_trues_and_breaks(struct tables *t)
{
    for (uint32_t clause = 0; clause < t->clauses; clause++) {
        uint16_t trues = 0, last = 0;
        for (uint32_t at = t->starts[clause]; at < t->starts[clause + 1]; at++)
            if (t->literals[at] & 1) {
                trues++;
                last = t->literals[at];
            }
        t->trues[clause] = trues;
        if (trues == 1)
            t->breaks[last / 2]++;
        if (trues == 0) {
            t->places[clause] = (uint16_t)t->uncovered;
            t->list[t->uncovered++] = (uint16_t)clause;
        }
    }
}

/* --- a reading --- */

static void clear(struct tables *t)
{
    t->terms = t->clauses = t->literal_count = t->uncovered = 0;
    memset(t->names, 0, NGI_NAMES_SIZE * sizeof *t->names);
    memset(t->values, 0, NGI_VALUES_SIZE * sizeof *t->values);
    memset(t->starts, 0, NGI_STARTS_SIZE * sizeof *t->starts);
    memset(t->literals, 0, NGI_LITERALS_SIZE * sizeof *t->literals);
    memset(t->occurrence_starts, 0, NGI_OCCURRENCE_STARTS_SIZE * sizeof *t->occurrence_starts);
    memset(t->occurrences, 0, NGI_OCCURRENCES_SIZE * sizeof *t->occurrences);
    memset(t->trues, 0, NGI_TRUE_COUNTS_SIZE * sizeof *t->trues);
    memset(t->breaks, 0, NGI_BREAK_COUNTS_SIZE * sizeof *t->breaks);
    memset(t->list, 0, NGI_UNCOVERED_LIST_SIZE * sizeof *t->list);
    memset(t->places, 0, NGI_PLACES_SIZE * sizeof *t->places);
    memset(t->marks, 0, NGI_MARKS_SIZE * sizeof *t->marks);
}

static ngi_read_answer refused(uint32_t reason, uint32_t line)
{
    return (ngi_read_answer){0, reason, line, 0, 0, 0, 0};
}

static ngi_read_answer read_into(struct tables *t, const uint8_t *text, size_t length)
{
    uint16_t slots[SLOTS] = {0};
    uint32_t stamps[2 * NGI_TERMS] = {0};
    struct reader r = {t, text, 1, slots, stamps};
    uint32_t reason;
    clear(t);
    if (length > NGI_TEXT)
        return refused(NGI_TEXT_TOO_LONG, 0);
    if (length > 0 && text[length - 1] != LINE_FEED)
        return refused(NGI_TEXT_CUT, 0);
    reason = read_text(&r, text + length);
    if (reason != NGI_NO_REASON || t->clauses == 0) {
        clear(t);
        return reason != NGI_NO_REASON ? refused(reason, r.line) : refused(NGI_NO_CLAUSE, 0);
    }
    place_occurrences(t);
    count_trues_and_breaks(t);
    return (ngi_read_answer){1, NGI_NO_REASON, 0, t->terms, t->clauses, t->literal_count, t->uncovered};
}

ngi_read_answer plain_read(const uint8_t *text, size_t text_length, NGI_TABLE_PARAMETERS(NGI_WRITTEN, NGI_WRITTEN, NGI_WRITTEN))
{
    struct tables t = {0, 0, 0, 0, TABLES};
    if (!ARE_FULL)
        return refused(NGI_TABLE_TOO_SHORT, 0);
    return read_into(&t, text, text_length);
}
