/*
 * Calls every function of the library as a C program does, and looks at what each answers and leaves. The sheet and the clause text are the
 * scope's printed example. Its last line is 'N passed, M failed'; the exit status is 0 only where M is 0.
 */
#include <stdio.h>
#include <string.h>

#include "ngiyarumba.h"

/* --- what is lent --- */

static ngi_tables t;
static uint8_t out[NGI_OUT_SIZE];

/* The eleven tables one by one, as a caller without NGI_LEND lends them; a short form lends one entry too few, of places or of marks. */
#define NINE_SPELLED(t)                                                                                                         \
    (t).names, NGI_NAMES_SIZE, (t).values, NGI_VALUES_SIZE, (t).starts, NGI_STARTS_SIZE, (t).literals_table, NGI_LITERALS_SIZE, \
        (t).occurrence_starts, NGI_OCCURRENCE_STARTS_SIZE, (t).occurrences, NGI_OCCURRENCES_SIZE, (t).true_counts,              \
        NGI_TRUE_COUNTS_SIZE, (t).break_counts, NGI_BREAK_COUNTS_SIZE, (t).uncovered_list, NGI_UNCOVERED_LIST_SIZE
#define SPELLED(t) NINE_SPELLED(t), (t).places, NGI_PLACES_SIZE, (t).marks, NGI_MARKS_SIZE
#define SHORT(t) NINE_SPELLED(t), (t).places, NGI_PLACES_SIZE - 1, (t).marks, NGI_MARKS_SIZE
#define SHORT_MARKS(t) NINE_SPELLED(t), (t).places, NGI_PLACES_SIZE, (t).marks, NGI_MARKS_SIZE - 1

/* A string as bytes and their number, without the byte 0 at its end. */
#define BYTES(string) (const uint8_t *)(string), sizeof(string) - 1

/* The four counts of an answer as arguments. */
#define COUNTS(answer) (answer).terms, (answer).clauses, (answer).literals, (answer).uncovered

#define TEXT "a b\n~a b\n"

enum { RUBBISH = 0x5a };

/* --- what is seen --- */

static unsigned passed, failed;

static void check(int holds, const char *what, int line)
{
    if (holds) {
        passed++;
        return;
    }
    failed++;
    printf("test.c:%d: %s does not hold\n", line, what);
}

#define CHECK(holds) check(holds, #holds, __LINE__)

/* Whether the first entries of a table are these. */
#define BEGINS(table, ...) (memcmp(table, ENTRIES(table, __VA_ARGS__), sizeof ENTRIES(table, __VA_ARGS__)) == 0)
#define ENTRIES(table, ...) ((const __typeof__((table)[0])[]){__VA_ARGS__})

static int is_zero(const void *table, size_t size)
{
    const unsigned char *byte = table;
    for (size_t at = 0; at < size; at++)
        if (byte[at] != 0)
            return 0;
    return 1;
}

static int all_are_zero(void)
{
    return is_zero(&t, sizeof t);
}

static ngi_tables kept;
static uint8_t kept_out[sizeof out];

static void keep_all(void)
{
    memcpy(&kept, &t, sizeof t);
    memcpy(kept_out, out, sizeof out);
}

static int all_are_as_kept(void)
{
    return memcmp(&kept, &t, sizeof t) == 0 && memcmp(kept_out, out, sizeof out) == 0;
}

/* --- the tests --- */

static void draws(void)
{
    ngi_drawn first = ngi_draw(1), second = ngi_draw(first.state);
    CHECK(first.number == 270369 && second.number == 67634689);
    ngi_drawn chosen = ngi_choice(first.state, 3);
    CHECK(chosen.reason == NGI_NO_REASON && chosen.number == 1 && chosen.state == 67634689);
    ngi_drawn even = ngi_choice_even(first.state, 3), again = ngi_choice_even(1584200935, 2); /* draws 4294967295, which is not below */
    CHECK(even.reason == NGI_NO_REASON && even.number == 0 && even.state == 67634689);
    CHECK(again.reason == NGI_NO_REASON && again.number == 0 && again.state == 253983);
    CHECK(ngi_heads(1, 370).number == 1 && ngi_heads(1, 369).number == 0); /* the draw's remainder is 369 */
}

static void refused_draws(void)
{
    ngi_drawn none = ngi_draw(0), among_none = ngi_choice(7, 0), even = ngi_choice_even(7, 0), biased = ngi_heads(7, 1001);
    CHECK(none.reason == NGI_OUT_OF_RANGE && none.number == 0 && none.state == 0);
    CHECK(among_none.reason == NGI_OUT_OF_RANGE && among_none.number == 0 && among_none.state == 7);
    CHECK(even.reason == NGI_OUT_OF_RANGE && even.number == 0 && even.state == 7);
    CHECK(biased.reason == NGI_OUT_OF_RANGE && biased.number == 0 && biased.state == 7);
}

/* Whether these are the arguments: each table of a set where its name stands, at its full size. */
static int are_whole(const ngi_tables *set, NGI_TABLE_PARAMETERS(const, const, const))
{
    return names == set->names && names_length == NGI_NAMES_SIZE && values == set->values && values_length == NGI_VALUES_SIZE &&
           starts == set->starts && starts_length == NGI_STARTS_SIZE &&
           literals_table == set->literals_table && literals_table_length == NGI_LITERALS_SIZE &&
           occurrence_starts == set->occurrence_starts && occurrence_starts_length == NGI_OCCURRENCE_STARTS_SIZE &&
           occurrences == set->occurrences && occurrences_length == NGI_OCCURRENCES_SIZE &&
           true_counts == set->true_counts && true_counts_length == NGI_TRUE_COUNTS_SIZE &&
           break_counts == set->break_counts && break_counts_length == NGI_BREAK_COUNTS_SIZE &&
           uncovered_list == set->uncovered_list && uncovered_list_length == NGI_UNCOVERED_LIST_SIZE &&
           places == set->places && places_length == NGI_PLACES_SIZE && marks == set->marks && marks_length == NGI_MARKS_SIZE;
}

/* No two tables of one size are left the same by this text, so none can be lent for another unseen. */
#define TELLING_TEXT "~a\nb\nc\n"

static void lending(void)
{
    static ngi_tables one, other;
    CHECK(are_whole(&one, NGI_LEND(one)) && are_whole(&other, SPELLED(other)));
    memset(&one, RUBBISH, sizeof one);
    memset(&other, RUBBISH, sizeof other);
    ngi_read_answer r = ngi_read(BYTES(TELLING_TEXT), NGI_LEND(one)), s = ngi_read(BYTES(TELLING_TEXT), SPELLED(other));
    CHECK(r.result == 1 && memcmp(&r, &s, sizeof r) == 0);
    CHECK(memcmp(&one, &other, sizeof one) == 0);
    CHECK(BEGINS(one.true_counts, 1, 0, 0, 0) && BEGINS(one.uncovered_list, 1, 2, 0) && BEGINS(one.places, 0, 0, 1, 0));
    CHECK(BEGINS(one.literals_table, 1, 2, 4, 0) && BEGINS(one.occurrences, 0, 1, 2, 0));
    CHECK(is_zero(one.marks, sizeof one.marks));
}

static void reading(void)
{
    ngi_read_answer r = ngi_read(BYTES(TEXT), NGI_LEND(t));
    CHECK(r.result == 1 && r.reason == NGI_NO_REASON && r.line == 0);
    CHECK(r.terms == 2 && r.clauses == 2 && r.literals == 4 && r.uncovered == 1);
    CHECK(t.names[0] == 'a' && t.names[1] == 'b' && t.names[2] == 0);
    CHECK(is_zero(t.values, sizeof t.values));
    CHECK(BEGINS(t.starts, 0, 2, 4, 0));
    CHECK(BEGINS(t.literals_table, 0, 2, 1, 2, 0));       /* a b, ~a b */
    CHECK(BEGINS(t.occurrence_starts, 0, 1, 2, 4, 4, 0)); /* a in clause 0, ~a in 1, b in 0 and 1, ~b in none */
    CHECK(BEGINS(t.occurrences, 0, 1, 0, 1, 0));
    CHECK(BEGINS(t.true_counts, 0, 1, 0) && BEGINS(t.break_counts, 1, 0, 0));
    CHECK(BEGINS(t.uncovered_list, 0, 0) && BEGINS(t.places, 0, 0, 0));
}

static void refused_readings(void)
{
    ngi_read(BYTES(TEXT), NGI_LEND(t));
    ngi_read_answer r = ngi_read(BYTES(TEXT), SHORT(t));
    CHECK(r.result == 0 && r.reason == NGI_TABLE_TOO_SHORT && r.terms == 0);
    CHECK(t.names[0] == 'a' && t.true_counts[1] == 1); /* as they were */
    r = ngi_read(BYTES("a b\nbillabong\n"), NGI_LEND(t));
    CHECK(r.result == 0 && r.reason == NGI_NINTH_BYTE && r.line == 2);
    CHECK(r.terms == 0 && r.clauses == 0 && r.literals == 0 && r.uncovered == 0);
    CHECK(all_are_zero());
    CHECK(ngi_read(BYTES("a b"), NGI_LEND(t)).reason == NGI_TEXT_CUT);
    CHECK(ngi_read(BYTES(""), NGI_LEND(t)).reason == NGI_NO_CLAUSE);
    r = ngi_read(BYTES("a b\n  \n"), NGI_LEND(t));
    CHECK(r.result == 0 && r.reason == NGI_BLANK_LINE && r.line == 2);
}

/* The text again, with a third variable that no clause has. */
#define NUMBERED_TEXT "c a comment\np cnf 3 2\n1 2 0 -1\n2 0\n"

static void reading_numbered(void)
{
    ngi_read_answer r = ngi_read_numbered(BYTES(NUMBERED_TEXT), NGI_LEND(t));
    CHECK(r.result == 1 && r.reason == NGI_NO_REASON && r.line == 0);
    CHECK(r.terms == 3 && r.clauses == 2 && r.literals == 4 && r.uncovered == 1);
    CHECK(BEGINS(t.names, '1', '2', '3', 0) && BEGINS(t.literals_table, 0, 2, 1, 2, 0));
    keep_all();
    ngi_read_answer own = ngi_read(BYTES("1 ~1\n2 ~2\n3 ~3\n1 2\n~1 2\n"), NGI_LEND(t));
    CHECK(memcmp(&own, &r, sizeof r) == 0 && all_are_as_kept()); /* the same clauses as own text */
    r = ngi_read_numbered(BYTES("p cnf 2048 1\n1 -2048 0\n"), NGI_LEND(t));
    CHECK(r.result == 1 && r.terms == NGI_TERMS && t.names[NGI_TERMS - 1] == ('2' | '0' << 8 | '4' << 16 | (uint64_t)'8' << 24));
    ngi_walk_answer a = ngi_walk(1, 10, 1, 400, 0, COUNTS(r), NGI_LEND(t));
    CHECK(a.result == 1 && a.uncovered == 0);
}

/* Whether this numbered text is refused for a reason at a line, with every table 0. */
static int is_refused_at(ngi_read_answer r, uint32_t reason, uint32_t line)
{
    return r.result == 0 && r.reason == reason && r.line == line && r.terms == 0 && r.clauses == 0 && r.literals == 0 && r.uncovered == 0 &&
           all_are_zero();
}

#define REFUSES_NUMBERED(text, reason, line) is_refused_at(ngi_read_numbered(BYTES(text), NGI_LEND(t)), reason, line)

static void refused_numbered_readings(void)
{
    ngi_read_numbered(BYTES(NUMBERED_TEXT), NGI_LEND(t));
    keep_all();
    CHECK(ngi_read_numbered(BYTES("p cnf 1 1\n1 0\n"), SHORT(t)).reason == NGI_TABLE_TOO_SHORT && all_are_as_kept());
    CHECK(ngi_read_numbered(BYTES("p"), SHORT_MARKS(t)).reason == NGI_TABLE_TOO_SHORT && all_are_as_kept());
    CHECK(REFUSES_NUMBERED("p cnf 1 1\n2 0\n", NGI_PAST_HEADER, 2));
    CHECK(REFUSES_NUMBERED("p cnf 1 1\n1 0", NGI_TEXT_CUT, 0));
    CHECK(REFUSES_NUMBERED("c\np cnf 1 1 \n1 0\n", NGI_HEADER_FORM, 2) && REFUSES_NUMBERED("c\n", NGI_HEADER_FORM, 0));
    CHECK(REFUSES_NUMBERED("p cnf 2049 1\n1 0\n", NGI_TOO_MANY_TERMS, 1));
    CHECK(REFUSES_NUMBERED("p cnf 1 1\n1 0\n%\n0\n", NGI_BYTE_NOT_ALLOWED, 3));
    CHECK(REFUSES_NUMBERED("p cnf 1 1\n1 0\n1 0\n", NGI_CLAUSE_COUNT, 3) && REFUSES_NUMBERED("p cnf 1 1\n1\n", NGI_CLAUSE_COUNT, 0));
    CHECK(REFUSES_NUMBERED("p cnf 1 1\n0\n", NGI_BLANK_LINE, 2));
    CHECK(REFUSES_NUMBERED("p cnf 1 1\n1 -1 0\n", NGI_NO_CLAUSE, 0));
}

static void walking(void)
{
    /* seed 1, at most 10 flips, one walk, bias 400, choices by the remainder */
    ngi_read_answer r = ngi_read(BYTES(TEXT), NGI_LEND(t));
    ngi_walk_answer a = ngi_walk(1, 10, 1, 400, 0, COUNTS(r), NGI_LEND(t));
    CHECK(a.result == 1 && a.reason == NGI_NO_REASON && a.walks == 1 && a.flips == 1);
    CHECK(a.terms == 2 && a.clauses == 2 && a.literals == 4 && a.uncovered == 0);
    CHECK(t.values[0] == 3 && t.values[1] == 0); /* a and b are both true */
    CHECK(BEGINS(t.true_counts, 2, 1, 0) && BEGINS(t.break_counts, 0, 1, 0));
    CHECK(BEGINS(t.literals_table, 0, 2, 1, 2, 0));
    /* a walk after a walk: with no flips it ends at its start, where a alone is true */
    a = ngi_walk(1, 0, 1, 400, 0, COUNTS(a), NGI_LEND(t));
    CHECK(a.result == 2 && a.walks == 1 && a.flips == 0 && a.uncovered == 1);
    CHECK(t.values[0] == 1 && t.uncovered_list[0] == 1);
}

/* The same file by each mode: after one flip another term has been chosen. */
static void walking_evenly(void)
{
    ngi_read_answer r = ngi_read(BYTES("~a\n~b\n"), NGI_LEND(t));
    ngi_walk_answer a = ngi_walk(3764646662, 1, 1, 400, 0, COUNTS(r), NGI_LEND(t));
    CHECK(a.result == 2 && a.flips == 1 && t.values[0] == 1);
    a = ngi_walk(3764646662, 1, 1, 400, 1, COUNTS(a), NGI_LEND(t));
    CHECK(a.result == 2 && a.flips == 1 && t.values[0] == 2);
    a = ngi_walk(3764646662, 1, 1, 400, 2, COUNTS(a), NGI_LEND(t));
    CHECK(a.result == 0 && a.reason == NGI_OUT_OF_RANGE && t.values[0] == 2);
}

static void refused_walks(void)
{
    ngi_read_answer r = ngi_read(BYTES(TEXT), NGI_LEND(t));
    CHECK(ngi_walk(0, 10, 1, 400, 0, COUNTS(r), NGI_LEND(t)).reason == NGI_OUT_OF_RANGE);
    CHECK(ngi_walk(1, 10, 1, 400, 0, COUNTS(r), SHORT(t)).reason == NGI_TABLE_TOO_SHORT);
    ngi_walk_answer a = ngi_walk(1, 10, 1, 400, 0, r.terms, r.clauses + 1, r.literals, r.uncovered, NGI_LEND(t));
    CHECK(a.result == 0 && a.reason == NGI_TABLES_DISAGREE && a.walks == 0 && a.flips == 0 && a.clauses == 3);
    CHECK(t.values[0] == 0 && BEGINS(t.true_counts, 0, 1, 0)); /* as they were */
}

static void flipping(void)
{
    static const uint16_t b_once[] = {1}, a_three_times[] = {0, 1, 0, 1, 0};
    ngi_read_answer r = ngi_read(BYTES(TEXT), NGI_LEND(t));
    ngi_flip_answer f = ngi_flip(b_once, 1, COUNTS(r), NGI_LEND(t));
    CHECK(f.result == 1 && f.reason == NGI_NO_REASON && f.uncovered == 0);
    CHECK(t.values[0] == 2 && BEGINS(t.true_counts, 1, 2, 0) && BEGINS(t.break_counts, 0, 1, 0));
    f = ngi_flip(a_three_times, 5, COUNTS(f), NGI_LEND(t));
    CHECK(f.result == 1 && t.values[0] == 3);
}

static void refused_flips(void)
{
    static const uint16_t b_and_unknown[] = {1, 2};
    ngi_read_answer r = ngi_read(BYTES(TEXT), NGI_LEND(t));
    ngi_flip_answer f = ngi_flip(b_and_unknown, 2, COUNTS(r), NGI_LEND(t));
    CHECK(f.result == 0 && f.reason == NGI_UNKNOWN_TERM && f.uncovered == 1);
    CHECK(t.values[0] == 0 && BEGINS(t.true_counts, 0, 1, 0)); /* b is not flipped either */
    CHECK(ngi_flip(b_and_unknown, 1, COUNTS(r), SHORT(t)).reason == NGI_TABLE_TOO_SHORT);
}

/* --- pins --- */

enum { A, B, C, D, UNKNOWN };

/* Terms a to d, of which b decides about the first two clauses. */
#define PINNING_TEXT "a b\n~a b\nc d\n"

/* Whether this is a walk that gave up, after so many of either. */
static int gave_up(ngi_walk_answer a, uint32_t walks, uint32_t flips)
{
    return a.result == 2 && a.reason == NGI_NO_REASON && a.walks == walks && a.flips == flips && a.uncovered > 0;
}

static int is_applied(ngi_flip_answer f, uint32_t uncovered)
{
    return f.result == 1 && f.reason == NGI_NO_REASON && f.terms == 4 && f.clauses == 3 && f.literals == 6 && f.uncovered == uncovered;
}

/* The text with a term pinned; what a reading left is kept first. */
static ngi_flip_answer read_and_pin(uint32_t term, uint32_t value)
{
    ngi_read_answer r = ngi_read(BYTES(PINNING_TEXT), NGI_LEND(t));
    keep_all();
    return ngi_pin(term, value, COUNTS(r), NGI_LEND(t));
}

static void pinning(void)
{
    ngi_flip_answer f = read_and_pin(B, 0); /* it is 0 already: the mark is all that changes */
    kept.marks[B] = 1;
    CHECK(is_applied(f, 2) && all_are_as_kept());
    f = ngi_pin(B, 1, COUNTS(f), NGI_LEND(t)); /* anew, at the other value: b turns */
    CHECK(is_applied(f, 1) && t.values[0] == 2 && BEGINS(t.marks, 0, 2, 0, 0, 0));
    CHECK(BEGINS(t.true_counts, 1, 2, 0, 0) && BEGINS(t.break_counts, 0, 1, 0, 0, 0));
    CHECK(BEGINS(t.uncovered_list, 2, 0) && BEGINS(t.places, 0, 0, 0, 0));
    f = ngi_pin(D, 4294967295, COUNTS(f), NGI_LEND(t)); /* whatever is not 0 pins at 1 */
    CHECK(is_applied(f, 0) && t.values[0] == 10 && BEGINS(t.marks, 0, 2, 0, 2, 0));
}

static void walking_pinned(void)
{
    ngi_flip_answer f = read_and_pin(B, 0);
    ngi_walk_answer a = ngi_walk(1, 50, 3, 400, 0, COUNTS(f), NGI_LEND(t));
    CHECK(gave_up(a, 3, 150) && a.uncovered == 1 && t.values[0] == 9 && BEGINS(t.marks, 0, 1, 0, 0, 0));
    CHECK(BEGINS(t.true_counts, 1, 0, 1, 0) && BEGINS(t.break_counts, 1, 0, 0, 1, 0) && BEGINS(t.uncovered_list, 1, 0));
    f = read_and_pin(B, 1);
    a = ngi_walk(1, 50, 3, 400, 0, COUNTS(f), NGI_LEND(t));
    CHECK(a.result == 1 && a.walks == 1 && a.flips == 1 && a.uncovered == 0 && t.values[0] == 11);
    CHECK(BEGINS(t.true_counts, 2, 1, 1, 0) && BEGINS(t.break_counts, 0, 1, 0, 1, 0) && BEGINS(t.marks, 0, 2, 0, 0, 0));
}

/* A clause with no free term ends each walk, with what flips it has made by then. */
static void ending_for_want_of_a_free_term(void)
{
    ngi_read_answer r = ngi_read(BYTES("a\n"), NGI_LEND(t));
    ngi_flip_answer f = ngi_pin(A, 0, COUNTS(r), NGI_LEND(t));
    CHECK(gave_up(ngi_walk(1, 50, 3, 400, 0, COUNTS(f), NGI_LEND(t)), 3, 0) && t.values[0] == 0);
    r = ngi_read(BYTES("a b\n~a b\nb\n"), NGI_LEND(t));
    f = ngi_pin(B, 0, COUNTS(r), NGI_LEND(t));
    ngi_walk_answer a = ngi_walk(2, 20, 2, 500, 0, COUNTS(f), NGI_LEND(t));
    CHECK(gave_up(a, 2, 1) && a.uncovered == 2 && t.values[0] == 0 && BEGINS(t.uncovered_list, 0, 2, 0));
    a = ngi_walk(1, 20, 2, 500, 0, COUNTS(a), NGI_LEND(t));
    CHECK(gave_up(a, 2, 0) && a.uncovered == 2 && t.values[0] == 1 && BEGINS(t.uncovered_list, 1, 2, 0));
}

static void lifting(void)
{
    static const uint16_t b_once[] = {B};
    ngi_flip_answer f = read_and_pin(B, 1);
    keep_all();
    f = ngi_lift(B, COUNTS(f), NGI_LEND(t));
    kept.marks[B] = 0;
    CHECK(is_applied(f, 1) && all_are_as_kept()); /* b keeps its value */
    f = ngi_lift(B, COUNTS(f), NGI_LEND(t));
    CHECK(is_applied(f, 1) && all_are_as_kept()); /* what is free may be lifted too */
    CHECK(is_applied(ngi_flip(b_once, 1, COUNTS(f), NGI_LEND(t)), 2) && t.values[0] == 0);
}

static void refused_flips_of_pinned_terms(void)
{
    static const uint16_t pinned[] = {A, B}, pinned_and_unknown[] = {B, UNKNOWN}, free_terms[] = {A, D};
    ngi_flip_answer f = read_and_pin(B, 0);
    keep_all();
    ngi_flip_answer refused = ngi_flip(pinned, 2, COUNTS(f), NGI_LEND(t));
    CHECK(refused.result == 0 && refused.reason == NGI_PINNED_TERM && refused.uncovered == 2);
    CHECK(ngi_flip(pinned_and_unknown, 2, COUNTS(f), NGI_LEND(t)).reason == NGI_UNKNOWN_TERM); /* though it stands later */
    CHECK(all_are_as_kept());
    CHECK(is_applied(ngi_flip(free_terms, 2, COUNTS(f), NGI_LEND(t)), 1) && t.values[0] == 9);
}

static void refused_pins(void)
{
    ngi_flip_answer f = read_and_pin(B, 1);
    keep_all();
    ngi_flip_answer pin = ngi_pin(UNKNOWN, 0, COUNTS(f), NGI_LEND(t)), lift = ngi_lift(UNKNOWN, COUNTS(f), NGI_LEND(t));
    CHECK(pin.result == 0 && pin.reason == NGI_UNKNOWN_TERM && pin.uncovered == 1 && lift.result == 0 && lift.reason == NGI_UNKNOWN_TERM);
    pin = ngi_pin(UNKNOWN, 0, f.terms, f.clauses, f.literals, 0, NGI_LEND(t));
    lift = ngi_lift(UNKNOWN, f.terms, f.clauses, f.literals, 0, NGI_LEND(t));
    CHECK(pin.result == 0 && pin.reason == NGI_TABLES_DISAGREE && pin.uncovered == 0);
    CHECK(lift.result == 0 && lift.reason == NGI_TABLES_DISAGREE && lift.uncovered == 0);
    CHECK(all_are_as_kept());
}

/* Of the calls that judge tables each refuses these, and changes nothing. */
static int disagree(ngi_flip_answer counts)
{
    static const uint16_t a_once[] = {A};
    keep_all();
    return ngi_walk(1, 50, 3, 400, 0, COUNTS(counts), NGI_LEND(t)).reason == NGI_TABLES_DISAGREE &&
           ngi_flip(a_once, 1, COUNTS(counts), NGI_LEND(t)).reason == NGI_TABLES_DISAGREE &&
           ngi_pin(A, 1, COUNTS(counts), NGI_LEND(t)).reason == NGI_TABLES_DISAGREE &&
           ngi_lift(B, COUNTS(counts), NGI_LEND(t)).reason == NGI_TABLES_DISAGREE && all_are_as_kept();
}

static void damaged_marks(void)
{
    ngi_flip_answer f = read_and_pin(B, 0);
    t.marks[B] = 2; /* but its value is 0 */
    CHECK(disagree(f));
    t.marks[B] = 3;
    CHECK(disagree(f));
    t.marks[B] = 0;
    t.marks[NGI_MARKS_SIZE - 1] = 1; /* past the terms */
    CHECK(disagree(f));
}

/* Every call on tables; for another reason they would be refused too. */
static void short_marks(void)
{
    static const uint16_t unknown[] = {UNKNOWN};
    ngi_flip_answer f = read_and_pin(B, 1);
    keep_all();
    CHECK(ngi_read(BYTES("c"), SHORT_MARKS(t)).reason == NGI_TABLE_TOO_SHORT);
    CHECK(ngi_walk(0, 50, 3, 400, 0, COUNTS(f), SHORT_MARKS(t)).reason == NGI_TABLE_TOO_SHORT);
    CHECK(ngi_flip(unknown, 1, COUNTS(f), SHORT_MARKS(t)).reason == NGI_TABLE_TOO_SHORT);
    CHECK(ngi_pin(UNKNOWN, 0, COUNTS(f), SHORT_MARKS(t)).reason == NGI_TABLE_TOO_SHORT);
    CHECK(ngi_lift(UNKNOWN, COUNTS(f), SHORT_MARKS(t)).reason == NGI_TABLE_TOO_SHORT);
    CHECK(ngi_run(BYTES("c"), SHORT_MARKS(t), out, NGI_OUT_SIZE).reason == NGI_TABLE_TOO_SHORT);
    CHECK(all_are_as_kept());
}

/* --- whole runs --- */

static int is_refused(ngi_run_answer a)
{
    return a.result == 0 && a.reason == NGI_TABLE_TOO_SHORT && a.length == 0;
}

/* Whether this is what stands first in out, whole. */
static int printed(ngi_run_answer a, const char *lines, size_t lines_length)
{
    return a.result == 1 && a.reason == NGI_NO_REASON && a.length == lines_length && memcmp(out, lines, lines_length) == 0;
}

#define RUN(input) ngi_run(BYTES(input), NGI_LEND(t), out, NGI_OUT_SIZE)
#define PRINTS(input, lines) printed(RUN(input), lines, sizeof(lines) - 1)
#define SHEET "seed=1\nflips=10\nwalks=1\nbias=400\n"
#define FOUND "result=found\nwalks=1\nflips=1\nchosen=2\nanswer=a b\n" /* for the sheet and the text */

static void running(void)
{
    CHECK(PRINTS(SHEET TEXT, FOUND));
    CHECK(t.values[0] == 3);
    CHECK(PRINTS(SHEET "a\n~a\n", "result=gaveup\nwalks=1\nflips=10\nchosen=0\nanswer=~?\n"));
    CHECK(PRINTS("seed=0\n" TEXT, "result=refused\nreason=11\nline=1\n"));
    CHECK(t.names[0] == 'a'); /* a refused sheet leaves the tables as they were */
    CHECK(PRINTS(TEXT, "result=refused\nreason=10\nline=1\n"));
    CHECK(PRINTS(SHEET "choice=even\n" TEXT, FOUND));
    CHECK(PRINTS(SHEET "choice=odd\n" TEXT, "result=refused\nreason=10\nline=5\n"));
    CHECK(PRINTS(SHEET "a b\na~b\n", "result=refused\nreason=4\nline=2\n"));
    CHECK(all_are_zero());
}

/* No sheet pins: what is read is free, whatever was marked before. */
static void running_over_pins(void)
{
    ngi_flip_answer f = read_and_pin(B, 0);
    ngi_pin(A, 0, COUNTS(f), NGI_LEND(t));
    CHECK(PRINTS("seed=0\n" TEXT, "result=refused\nreason=11\nline=1\n"));
    CHECK(BEGINS(t.marks, 1, 1, 0, 0, 0)); /* as they were */
    CHECK(PRINTS(SHEET TEXT, FOUND));
    CHECK(t.values[0] == 3 && is_zero(t.marks, sizeof t.marks));
}

static void rest_of_the_buffer(void)
{
    memset(out, '-', sizeof out);
    CHECK(PRINTS(SHEET TEXT, FOUND));
    CHECK(out[sizeof(FOUND) - 1] == '-' && out[NGI_OUT_SIZE - 1] == '-'); /* as they were */
}

static void refused_runs(void)
{
    RUN(SHEET TEXT);
    keep_all();
    /* another text, which would leave other tables and another report */
    CHECK(is_refused(ngi_run(BYTES(SHEET "c\n~c\n"), SHORT(t), out, NGI_OUT_SIZE)));
    CHECK(all_are_as_kept());
    CHECK(is_refused(ngi_run(BYTES(SHEET "c\n~c\n"), NGI_LEND(t), out, NGI_OUT_SIZE - 1)));
    CHECK(all_are_as_kept());
}

int main(void)
{
    draws();
    refused_draws();
    lending();
    reading();
    refused_readings();
    reading_numbered();
    refused_numbered_readings();
    walking();
    walking_evenly();
    refused_walks();
    flipping();
    refused_flips();
    pinning();
    walking_pinned();
    ending_for_want_of_a_free_term();
    lifting();
    refused_flips_of_pinned_terms();
    refused_pins();
    damaged_marks();
    short_marks();
    running();
    running_over_pins();
    rest_of_the_buffer();
    refused_runs();
    printf("%u passed, %u failed\n", passed, failed);
    return failed != 0;
}
