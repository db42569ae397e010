/*
 * Readings of clause texts through ngi_read and through the plain C version. The texts are random, with LITERALS at least as many as TERMS;
 * one term in one clause stands for a line of one literal, LITERALS times.
 *
 *   readings check TERMS CLAUSES LITERALS                 gives both the text, as it is and with a byte changed; the status is 0 where
 *                                                         answers and tables are the same throughout, and the text has these counts
 *   readings time TERMS CLAUSES LITERALS                  microseconds for a reading: ngi_read's, the plain version's, and how many
 *                                                         times as quick ngi_read is
 *   readings run TERMS CLAUSES LITERALS SIDE READINGS     readings by one side, ngi or plain, so that instructions can be counted
 */
#include <stdint.h>
#include <stdio.h>
#include <string.h>

#include "common.h"
#include "plain.h"
#include "texts.h"

enum { CHANGES_CHECKED = 64 };

static struct tables one, other;
static struct text text;

/* --- random texts --- */

/* One byte for the first terms, 3 to 8 for every sixteenth of the others, else two; the first two bytes tell terms apart. */
static void put_name(uint32_t term)
{
    uint32_t length = term < 93 ? 1 : term % 16 == 0 ? 3 + term / 16 % 6 : 2;
    put(&text, 33 + term % 93);
    for (uint32_t at = 1; at < length; at++)
        put(&text, 33 + term / 93 * at % 93);
}

/* One literal over and over: all but the first are skipped. */
static void make_repeats(uint32_t literals)
{
    for (uint32_t at = 0; at < literals; at++) {
        put(&text, '!');
        put(&text, at + 1 < literals ? ' ' : '\n');
    }
}

/* Clauses are as equally long as can be. At equal distances the terms stand in order, so that none is missing; the others are drawn. */
static void make_text(uint32_t terms, uint32_t clauses, uint32_t literals)
{
    static uint32_t drawn[NGI_LITERALS];
    uint32_t distance;
    if (terms == 0 || literals < terms || literals > NGI_LITERALS)
        fail("no text is made with these counts");
    distance = literals / terms;
    for (uint32_t clause = 0; clause < clauses; clause++) {
        uint32_t start = clause * literals / clauses, end = (clause + 1) * literals / clauses;
        for (uint32_t at = start; at < end; at++) {
            uint32_t term = at % distance == 0 ? at / distance % terms : random_below(terms);
            while (stands(drawn, start, at, term))
                term = random_below(terms);
            drawn[at] = term;
            if (random_below(2))
                put(&text, '~');
            put_name(term);
            put(&text, at + 1 < end ? ' ' : '\n');
        }
    }
}

/* --- calls --- */

/* From tables full of rubbish. */
static ngi_read_answer read_by_both(void)
{
    ngi_read_answer answer, other_answer;
    memset(&one, RUBBISH, sizeof one);
    memset(&other, RUBBISH, sizeof other);
    answer = read_text(ngi_read, &text, &one);
    other_answer = read_text(plain_read, &text, &other);
    if (memcmp(&answer, &other_answer, sizeof answer) != 0)
        fail("the two answer differently");
    if (memcmp(&one, &other, sizeof one) != 0)
        fail("the two leave different tables");
    return answer;
}

static int check(uint32_t terms, uint32_t clauses, uint32_t literals)
{
    ngi_read_answer answer = read_by_both();
    if (answer.result != 1 || answer.terms != terms || answer.clauses != clauses || answer.literals != (terms == 1 ? 1 : literals))
        fail("the text is refused, or has other counts");
    for (int changes = 0; changes < CHANGES_CHECKED; changes++) {
        uint8_t *byte = &text.bytes[random_below(text.length)], before = *byte;
        *byte = (uint8_t)random_below(128);
        read_by_both();
        *byte = before;
    }
    return 0;
}

static void read_by(int side, uint32_t flips)
{
    (void)flips;
    if (side == NGI)
        read_accepted(ngi_read, &text, &one, 1);
    else
        read_accepted(plain_read, &text, &other, 1);
}

int main(int count, char **words)
{
    if (count >= 5 && number(words[2]) == 1)
        make_repeats(number(words[4]));
    else if (count >= 5)
        make_text(number(words[2]), number(words[3]), number(words[4]));
    if (count == 5 && strcmp(words[1], "check") == 0)
        return check(number(words[2]), number(words[3]), number(words[4]));
    if (count == 5 && strcmp(words[1], "time") == 0)
        return time_readings(read_by);
    if (count == 7 && strcmp(words[1], "run") == 0) {
        read_accepted(strcmp(words[5], "ngi") == 0 ? ngi_read : plain_read, &text, &one, number(words[6]));
        return 0;
    }
    printf("usage: readings check|time TERMS CLAUSES LITERALS, or readings run TERMS CLAUSES LITERALS ngi|plain READINGS\n");
    return 2;
}
