/*
 * The program as one would first write it in C, with static tables: reads by plain_read, walks as plain_walk does, and does not judge tables
 * that it has just read.
 */
#include <stdio.h>
#include <string.h>

#include "plain_walker.h"

enum { SHEET_FORM = 10, LINES = 4, MOST_DIGITS = 10 };

static const char choice_line[] = "choice=even\n";
enum { CHOICE_KEY = 7, CHOICE_LINE = sizeof choice_line - 1 };

static uint8_t input[NGI_TEXT + 1];
static ngi_tables lent;

/* --- the order sheet --- */

/* A line's key, and the range of its number. */
static const struct line {
    const char *key;
    uint64_t least, most;
} lines[LINES] = {{"seed=", 1, 4294967295}, {"flips=", 0, MOST_FLIPS}, {"walks=", 1, MOST_WALKS}, {"bias=", 0, SURE}};

/* The input that is not read yet. */
struct rest {
    const uint8_t *at, *end;
};

/* The digits that stand next, ten at most, and whether they are a number. */
static uint64_t read_digits(struct rest *r, int *is_number)
{
    const uint8_t *first = r->at;
    uint64_t number = 0;
    for (; r->at < r->end && r->at - first < MOST_DIGITS && *r->at >= '0' && *r->at <= '9'; r->at++)
        number = 10 * number + (*r->at - '0');
    *is_number = r->at > first && (*first != '0' || r->at - first == 1);
    return number;
}

static uint32_t read_line(struct rest *r, const struct line *l, uint32_t *number)
{
    size_t length = strlen(l->key);
    uint64_t read;
    int is_number;
    if ((size_t)(r->end - r->at) < length || memcmp(r->at, l->key, length) != 0)
        return SHEET_FORM;
    r->at += length;
    read = read_digits(r, &is_number);
    if (!is_number || r->at == r->end || *r->at++ != '\n')
        return SHEET_FORM;
    *number = (uint32_t)read;
    return read < l->least || read > l->most ? NGI_OUT_OF_RANGE : NGI_NO_REASON;
}

/* Whether so much of the fifth line stands next. */
static int begins(const struct rest *r, size_t length)
{
    return (size_t)(r->end - r->at) >= length && memcmp(r->at, choice_line, length) == 0;
}

/* The reason of the first faulty line, whose number is left in line. */
static uint32_t read_sheet(struct rest *r, uint32_t *numbers, uint32_t *line)
{
    uint32_t reason = NGI_NO_REASON;
    for (uint32_t at = 0; at < LINES && reason == NGI_NO_REASON; at++) {
        *line = at + 1;
        reason = read_line(r, &lines[at], &numbers[at]);
    }
    if (reason != NGI_NO_REASON || !begins(r, CHOICE_KEY))
        return reason;
    *line = LINES + 1;
    if (!begins(r, CHOICE_LINE))
        return SHEET_FORM;
    r->at += CHOICE_LINE;
    numbers[LINES] = 1;
    return NGI_NO_REASON;
}

/* --- what is printed --- */

static int refuse(uint32_t reason, uint32_t line)
{
    printf("result=refused\nreason=%u\nline=%u\n", reason, line);
    return 0;
}

static void print_term(uint32_t term)
{
    if (!(lent.values[term / 32] >> term % 32 & 1))
        putchar('~');
    for (uint64_t name = lent.names[term]; name != 0; name >>= 8)
        putchar((int)(name & 255));
}

static void print_answer(uint32_t terms)
{
    uint32_t chosen = 0;
    for (uint32_t word = 0; word < NGI_VALUES_SIZE; word++)
        chosen += (uint32_t)__builtin_popcount(lent.values[word]);
    printf("chosen=%u\nanswer=", chosen);
    for (uint32_t term = 0; term < terms; term++) {
        if (term > 0)
            putchar(' ');
        print_term(term);
    }
    putchar('\n');
}

static int report(const struct walker *w, const struct tables *t)
{
    printf("result=%s\nwalks=%u\nflips=%u\n", t->uncovered == 0 ? "found" : "gaveup", w->walks_begun, w->flips_made);
    if (t->uncovered == 0)
        print_answer(t->terms);
    else
        printf("chosen=0\nanswer=~?\n");
    return 0;
}

/* --- a run --- */

static ngi_read_answer read_text(const struct rest *r)
{
    return plain_read(r->at, (size_t)(r->end - r->at), NGI_LEND(lent));
}

static int walk_and_report(const uint32_t *numbers, const ngi_read_answer *a)
{
    struct walker w = {numbers[0], numbers[1], numbers[2], numbers[3], numbers[LINES], 0, 0};
    struct tables t = {a->terms, a->clauses, a->literals, a->uncovered, lent.names, lent.values, lent.starts, lent.literals_table,
                       lent.occurrence_starts, lent.occurrences, lent.true_counts, lent.break_counts, lent.uncovered_list, lent.places,
                       lent.marks};
    do
        walk_once(&w, &t);
    while (t.uncovered > 0 && w.walks_begun < w.walks);
    return report(&w, &t);
}

int main(void)
{
    size_t length = fread(input, 1, sizeof input, stdin);
    struct rest r = {input, input + length};
    uint32_t numbers[LINES + 1] = {0}, line, reason;
    ngi_read_answer a;
    if (length > NGI_TEXT)
        return refuse(NGI_TEXT_TOO_LONG, 0);
    reason = read_sheet(&r, numbers, &line);
    if (reason != NGI_NO_REASON)
        return refuse(reason, line);
    a = read_text(&r);
    return a.result == 0 ? refuse(a.reason, a.line) : walk_and_report(numbers, &a);
}
