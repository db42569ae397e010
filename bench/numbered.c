/*
 * Readings of numbered files through ngi_read_numbered, and of their likes through ngi_read: own texts with the same clauses, the numbers as
 * names. Each number first stands after those below it, so that it is the same term in both. They first stand one after the other up to AGAIN,
 * then at equal distances; between them numbers up to AGAIN are drawn.
 *
 *   numbered check TERMS CLAUSES LITERALS AGAIN                  gives both their texts; the status is 0 where answers and tables are the
 *                                                                same, and the texts have these counts
 *   numbered time TERMS CLAUSES LITERALS AGAIN                   microseconds for a reading: of the own text, of the numbered one, and how
 *                                                                many times as long the numbered one takes
 *   numbered run TERMS CLAUSES LITERALS AGAIN SIDE READINGS      readings by one side, own or numbered, so that instructions can be counted
 */
#include <stdint.h>
#include <stdio.h>
#include <string.h>

#include "common.h"
#include "texts.h"

enum { OWN, NUMBERED }; /* the sides, in the order in which they take turns */

static read_function *const readers[SIDES] = {ngi_read, ngi_read_numbered};
static struct text texts[SIDES];
static struct tables read_into[SIDES];

/* --- random texts --- */

static void put_number(struct text *text, uint32_t number)
{
    if (number >= 10)
        put_number(text, number / 10);
    put(text, '0' + number % 10);
}

static void put_header(uint32_t terms, uint32_t clauses)
{
    for (const char *at = "p cnf "; *at != 0; at++)
        put(&texts[NUMBERED], (uint8_t)*at);
    put_number(&texts[NUMBERED], terms);
    put(&texts[NUMBERED], ' ');
    put_number(&texts[NUMBERED], clauses);
    put(&texts[NUMBERED], '\n');
}

static void put_literal(uint32_t term, uint32_t negated)
{
    static const uint8_t signs[SIDES] = {'~', '-'};
    for (int side = 0; side < SIDES; side++) {
        if (negated)
            put(&texts[side], signs[side]);
        put_number(&texts[side], term + 1);
    }
}

/* What stands after a literal. */
static void put_end(int is_last)
{
    put(&texts[OWN], is_last ? '\n' : ' ');
    put(&texts[NUMBERED], ' ');
    if (is_last) {
        put(&texts[NUMBERED], '0');
        put(&texts[NUMBERED], '\n');
    }
}

/* Clauses are as equally long as can be. */
static void make_texts(uint32_t terms, uint32_t clauses, uint32_t literals, uint32_t again)
{
    static uint32_t drawn[NGI_LITERALS];
    uint32_t come = 0;
    if (terms == 0 || literals < terms || literals > NGI_LITERALS || again > terms)
        fail("no text is made with these counts");
    put_header(terms, clauses);
    for (uint32_t clause = 0; clause < clauses; clause++) {
        uint32_t start = clause * literals / clauses, end = (clause + 1) * literals / clauses;
        for (uint32_t at = start; at < end; at++) {
            int is_new = come < terms && (come < again || at % (literals / terms) == 0);
            uint32_t term = is_new ? come++ : random_below(again);
            while (stands(drawn, start, at, term))
                term = random_below(again);
            drawn[at] = term;
            put_literal(term, random_below(2));
            put_end(at + 1 == end);
        }
    }
}

/* --- calls --- */

static void read_by(int side, uint32_t flips)
{
    (void)flips;
    read_accepted(readers[side], &texts[side], &read_into[side], 1);
}

/* From tables full of rubbish. */
static int check(uint32_t terms, uint32_t clauses, uint32_t literals)
{
    ngi_read_answer answers[SIDES];
    for (int side = 0; side < SIDES; side++) {
        memset(&read_into[side], RUBBISH, sizeof read_into[side]);
        answers[side] = read_text(readers[side], &texts[side], &read_into[side]);
    }
    if (memcmp(&answers[OWN], &answers[NUMBERED], sizeof *answers) != 0)
        fail("the two answer differently");
    if (memcmp(&read_into[OWN], &read_into[NUMBERED], sizeof *read_into) != 0)
        fail("the two leave different tables");
    if (answers->result != 1 || answers->terms != terms || answers->clauses != clauses || answers->literals != literals)
        fail("the texts are refused, or have other counts");
    return 0;
}

int main(int count, char **words)
{
    if (count >= 6)
        make_texts(number(words[2]), number(words[3]), number(words[4]), number(words[5]));
    if (count == 6 && strcmp(words[1], "check") == 0)
        return check(number(words[2]), number(words[3]), number(words[4]));
    if (count == 6 && strcmp(words[1], "time") == 0)
        return time_readings(read_by);
    if (count == 8 && strcmp(words[1], "run") == 0) {
        int side = strcmp(words[6], "own") == 0 ? OWN : NUMBERED;
        read_accepted(readers[side], &texts[side], &read_into[side], number(words[7]));
        return 0;
    }
    printf("usage: numbered check|time TERMS CLAUSES LITERALS AGAIN, or numbered run TERMS CLAUSES LITERALS AGAIN own|numbered READINGS\n");
    return 2;
}
