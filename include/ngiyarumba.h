/* Ngiyarumba: what a C program may call of the static library libngiyarumba.a. */
#ifndef NGIYARUMBA_H
#define NGIYARUMBA_H

#include <stddef.h>
#include <stdint.h>

#ifdef __cplusplus
extern "C" {
#endif

/* The most that may be held. */
#define NGI_TERMS 2048
#define NGI_CLAUSES 8192
#define NGI_LITERALS 16384

/* The most bytes in one clause text, and in one whole input of a run. */
#define NGI_TEXT 65536

/* The most flips in one list. */
#define NGI_LIST 65536

/*
 * The eleven tables that a caller lends, in the order in which every function takes them, each as a pointer and a length in entries.
 * Terms and clauses are numbered from 0; term k's literal is 2k, its negation 2k + 1. Entries past those in use are 0 up to the full size.
 * A table may be longer than its full size: what lies beyond is never read or written. No pointer is null, what has length 0 has one too,
 * and what is lent in one call does not overlap.
 */
#define NGI_NAMES_SIZE NGI_TERMS                       /* names by term: byte 0 lowest, unused bytes 0 */
#define NGI_VALUES_SIZE (NGI_TERMS / 32)               /* values: 32 terms to a word, low bit first */
#define NGI_STARTS_SIZE (NGI_CLAUSES + 1)              /* where each clause starts in the literals, one past the last included */
#define NGI_LITERALS_SIZE NGI_LITERALS                 /* literals, clause by clause */
#define NGI_OCCURRENCE_STARTS_SIZE (2 * NGI_TERMS + 1) /* where each literal starts in the occurrences, one past the last included */
#define NGI_OCCURRENCES_SIZE NGI_LITERALS              /* clauses by literal, rising within a literal */
#define NGI_TRUE_COUNTS_SIZE NGI_CLAUSES               /* true literals by clause */
#define NGI_BREAK_COUNTS_SIZE NGI_TERMS                /* by term: the clauses whose only true literal is that term's */
#define NGI_UNCOVERED_LIST_SIZE NGI_CLAUSES            /* the clauses with no true literal */
#define NGI_PLACES_SIZE NGI_CLAUSES                    /* by clause: its place in that list, from 0; 0 if covered */
#define NGI_MARKS_SIZE NGI_TERMS                       /* by term: 0 free, 1 pinned at 0, 2 pinned at 1 */

/* The eleven tables at their full sizes, about 162 kB, for a caller to have in one piece. */
typedef struct {
    uint64_t names[NGI_NAMES_SIZE];
    uint32_t values[NGI_VALUES_SIZE];
    uint16_t starts[NGI_STARTS_SIZE];
    uint16_t literals_table[NGI_LITERALS_SIZE];
    uint16_t occurrence_starts[NGI_OCCURRENCE_STARTS_SIZE];
    uint16_t occurrences[NGI_OCCURRENCES_SIZE];
    uint16_t true_counts[NGI_TRUE_COUNTS_SIZE];
    uint16_t break_counts[NGI_BREAK_COUNTS_SIZE];
    uint16_t uncovered_list[NGI_UNCOVERED_LIST_SIZE];
    uint16_t places[NGI_PLACES_SIZE];
    uint8_t marks[NGI_MARKS_SIZE];
} ngi_tables;

/* The tables of t, an ngi_tables and not a pointer to one, as the twenty-two arguments of a call: ngi_read(text, length, NGI_LEND(t)). */
#define NGI_LEND(t)                                                                                                \
    NGI_LEND_ONE((t).names), NGI_LEND_ONE((t).values), NGI_LEND_ONE((t).starts), NGI_LEND_ONE((t).literals_table), \
        NGI_LEND_ONE((t).occurrence_starts), NGI_LEND_ONE((t).occurrences), NGI_LEND_ONE((t).true_counts),         \
        NGI_LEND_ONE((t).break_counts), NGI_LEND_ONE((t).uncovered_list), NGI_LEND_ONE((t).places),                \
        NGI_LEND_ONE((t).marks)
#define NGI_LEND_ONE(table) (table), sizeof(table) / sizeof((table)[0])

/*
 * The twenty-two parameters that take them. A call that only reads names, starts, literals and both tables of occurrences has const for fixed;
 * one that only reads values, true counts, break counts, uncovered list and places has it for moved, and one that only reads marks for marked.
 */
#define NGI_TABLE_PARAMETERS(fixed, moved, marked)                                                                    \
    fixed uint64_t *names, size_t names_length,                             /* at least NGI_NAMES_SIZE */             \
        moved uint32_t *values, size_t values_length,                       /* at least NGI_VALUES_SIZE */            \
        fixed uint16_t *starts, size_t starts_length,                       /* at least NGI_STARTS_SIZE */            \
        fixed uint16_t *literals_table, size_t literals_table_length,       /* at least NGI_LITERALS_SIZE */          \
        fixed uint16_t *occurrence_starts, size_t occurrence_starts_length, /* at least NGI_OCCURRENCE_STARTS_SIZE */ \
        fixed uint16_t *occurrences, size_t occurrences_length,             /* at least NGI_OCCURRENCES_SIZE */       \
        moved uint16_t *true_counts, size_t true_counts_length,             /* at least NGI_TRUE_COUNTS_SIZE */       \
        moved uint16_t *break_counts, size_t break_counts_length,           /* at least NGI_BREAK_COUNTS_SIZE */      \
        moved uint16_t *uncovered_list, size_t uncovered_list_length,       /* at least NGI_UNCOVERED_LIST_SIZE */    \
        moved uint16_t *places, size_t places_length,                       /* at least NGI_PLACES_SIZE */            \
        marked uint8_t *marks, size_t marks_length                          /* at least NGI_MARKS_SIZE */
#define NGI_WRITTEN /* in place of const, in a call that writes them */

/* The full size of the buffer that ngi_run writes to: no report is longer. Longer may be lent here too. */
#define NGI_OUT_SIZE (10 * NGI_TERMS + 64)

/* Why a call was refused, in the words of reasons.txt; what is more stands after a semicolon. */
enum {
    NGI_NO_REASON = 0,
    NGI_TABLE_TOO_SHORT = 1,   /* a lent table or buffer is shorter than its full size; a buffer is lent to ngi_run alone */
    NGI_TEXT_TOO_LONG = 2,     /* the text or the whole input is too long; over NGI_TEXT bytes */
    NGI_TEXT_CUT = 3,          /* the last line does not end with byte 10; an empty text has no line */
    NGI_BYTE_NOT_ALLOWED = 4,  /* a byte that may not stand there */
    NGI_NINTH_BYTE = 5,        /* a name is longer than 8 bytes */
    NGI_TOO_MANY_TERMS = 6,    /* more terms than may be held; over NGI_TERMS */
    NGI_TOO_MANY_LITERALS = 7, /* more literals than may be held; over NGI_LITERALS */
    NGI_TOO_MANY_CLAUSES = 8,  /* more clauses than may be held; over NGI_CLAUSES */
    NGI_NO_CLAUSE = 9,         /* no clause was kept */
    NGI_SHEET_FORM = 10,       /* a line of the order sheet is missing or does not have its form; told by ngi_run alone, in print */
    NGI_OUT_OF_RANGE = 11,     /* a number is outside its range */
    NGI_TABLES_DISAGREE = 12,  /* no clause stands, or the tables do not agree; some count or entry is not what the others say, or a mark is over 2 */
    NGI_UNKNOWN_TERM = 13,     /* a term is named that is not there; one not below the term count, in a flip list, a pin or a lifting */
    NGI_LIST_TOO_LONG = 14,    /* a flip list is too long; over NGI_LIST entries */
    NGI_BLANK_LINE = 15,       /* a line is empty or has spaces only; ~ alone may stand in a line that is to say nothing; in a numbered file, 0 alone */
    NGI_HEADER_FORM = 16,      /* the header of a numbered file is missing or does not have its form */
    NGI_CLAUSE_COUNT = 17,     /* clauses are more or fewer than the header says, or the last one is not ended */
    NGI_PAST_HEADER = 18,      /* a number is above the header's number of variables */
    NGI_PINNED_TERM = 20       /* a flip list names a pinned term */
};

/* The answer to a draw, a choice of either kind or heads. */
typedef struct {
    uint32_t reason; /* NGI_NO_REASON, or NGI_OUT_OF_RANGE */
    uint32_t number; /* the number drawn; 0 where there is a reason */
    uint32_t state;  /* the generator's state now; as it was where there is a reason */
} ngi_drawn;

/*
 * One draw from a state above 0: 32-bit xorshift, by 13 to the left, 17 to the right, 5 to the left. The number is the new state. The
 * generator's state is at first a seed, then what the last draw, choice or heads gave as its state.
 */
ngi_drawn ngi_draw(uint32_t state);

/* A choice among m, m above 0: the draw's remainder by m, so a number from 0 to m - 1. */
ngi_drawn ngi_choice(uint32_t state, uint32_t m);

/*
 * A choice among m that favours no number: the draw less 1, if it is below m times the whole part of 4,294,967,295 / m, gives its remainder
 * by m, and is drawn again otherwise, at most eight draws in all; the eighth, less 1, gives its remainder whatever it is.
 */
ngi_drawn ngi_choice_even(uint32_t state, uint32_t m);

/* Heads, which is 1, where the draw's remainder by 1,000 is below the bias, else 0. The bias is at most 1,000. */
ngi_drawn ngi_heads(uint32_t state, uint32_t bias);

/* The answer to a reading. */
typedef struct {
    uint32_t result; /* 1 accepted, 0 refused */
    uint32_t reason; /* NGI_NO_REASON where it was accepted */
    uint32_t line;   /* of the fault, counted from 1, for reasons 4 to 8 and 15 to 18; else, and for 16 and 17 at the text's end, 0 */
    uint32_t terms, clauses, literals, uncovered; /* the four counts; all 0 where it was refused */
} ngi_read_answer;

/*
 * Reads clause text, one clause to a line, into the tables, whatever they held. An accepted reading leaves every value 0 and every term free,
 * true counts, break counts, uncovered list and places worked out for that, the list in rising clause order, and 0 in the entries past those
 * in use, up to the full sizes. A reading refused for reason 1 changes nothing; refused for another, it leaves 0 in every entry up to the full
 * sizes. Reasons are tested in the order 1, 2, 3, then the text from the left, up to the first fault (4 to 8, 15), whose line is told, then 9.
 */
ngi_read_answer ngi_read(const uint8_t *text, size_t text_length, /* clause text; over NGI_TEXT bytes is reason 2 */
                         NGI_TABLE_PARAMETERS(NGI_WRITTEN, NGI_WRITTEN, NGI_WRITTEN));

/*
 * Reads a numbered file (DIMACS CNF) into the tables, whatever they held: comment lines that begin with c, the line `p cnf V C`, which says how
 * many variables and clauses there are, then numbers, a minus before those negated and a 0 after each clause, with spaces, tabs and line ends
 * between them. Variable v becomes term v - 1, named by its decimal number, and is known even where no clause has it. The tables are left as
 * ngi_read leaves them for the same clauses; a repeated number is skipped, and a clause with a number both ways is dropped, but counted towards C
 * and read on for reasons 4 and 18. Reasons are tested in the order 1, 2, 3, then the text from the left, up to the first fault: 16, then 6, in
 * the header; 4, 18, then 7 at a number, 17, 15, then 8 at a 0. At the text's end 16 where no header came, 17 where the last clause is not
 * ended or clauses are missing, both with line 0, then 9.
 */
ngi_read_answer ngi_read_numbered(const uint8_t *text, size_t text_length, /* a numbered file; over NGI_TEXT bytes is reason 2 */
                                  NGI_TABLE_PARAMETERS(NGI_WRITTEN, NGI_WRITTEN, NGI_WRITTEN));

/* The answer to a walk. */
typedef struct {
    uint32_t result; /* 1 found, 2 gave up, 0 refused */
    uint32_t reason; /* NGI_NO_REASON where it was not refused */
    uint32_t walks;  /* those begun; 0 where it was refused */
    uint32_t flips;  /* made, summed over all walks; 0 where it was refused */
    uint32_t terms, clauses, literals, uncovered; /* the four counts now; where it was refused, those given */
} ngi_walk_answer;

/*
 * Walks from drawn values, one flip after another, until no clause is uncovered (found) or until the last of the walks has ended (gave up). A
 * walk ends where its flips are made, or where the clause chosen has no free term: that counts no flip. A pinned term has its marked value from
 * the start of each walk on; its bit is drawn all the same, and only literals of free terms are chosen. The values that stand are not looked
 * at: the answer depends on the first five numbers, the clauses and the marks alone. Afterwards the tables hold the end of the last walk, ready
 * for another call; names, starts, literals, occurrence starts, occurrences and marks are only read. A refused walk leaves every table as it
 * was. Reasons are tested in the order 1, 11, 12.
 */
ngi_walk_answer ngi_walk(uint32_t seed,                         /* the first state: 1 to 4,294,967,295 */
                         uint32_t flips,                        /* for each walk: 0 to 100,000 */
                         uint32_t walks,                        /* 1 to 1,000 */
                         uint32_t bias,                         /* in thousandths: 0 to 1,000 */
                         uint32_t even,                         /* 0 to choose as ngi_choice does, 1 as ngi_choice_even does */
                         uint32_t terms, uint32_t clauses,      /* the counts that the last call gave, */
                         uint32_t literals, uint32_t uncovered, /* all four of them */
                         NGI_TABLE_PARAMETERS(const, NGI_WRITTEN, const));

/* The answer to a flip list, a pin or a lifting. */
typedef struct {
    uint32_t result; /* 1 applied, 0 refused */
    uint32_t reason; /* NGI_NO_REASON where it was applied */
    uint32_t terms, clauses, literals, uncovered; /* the four counts now; where it was refused, those given */
} ngi_flip_answer;

/*
 * Turns the value of each term that the list names, in its order, and brings true counts, break counts, uncovered list and places up to
 * date; the other tables are only read. The empty list is applied too. The whole list is looked at before any flip: a list is applied
 * whole or refused whole, and a refused one leaves every table as it was. Two lists in turn leave what the joined list leaves, if that is
 * not over NGI_LIST; a list given twice leaves what stood, but for the order within the uncovered list and the places noted for it. Reasons
 * are tested in the order 1, 14, 12, 13, 20: an unknown term anywhere in the list comes before a pinned one.
 */
ngi_flip_answer ngi_flip(const uint16_t *list, size_t list_length, /* term numbers; over NGI_LIST is reason 14 */
                         uint32_t terms, uint32_t clauses,         /* the counts that the last call gave, */
                         uint32_t literals, uint32_t uncovered,    /* all four of them */
                         NGI_TABLE_PARAMETERS(const, NGI_WRITTEN, const));

/*
 * Pins a term at a value: marks it, and turns its value where that differs, as a flip list of this one term does; a value that is the same
 * already leaves all but the mark as it was. From then on no walk and no flip list moves the term, until its pin is lifted or a text is read.
 * What is pinned may be pinned anew, at the other value too. Names, starts, literals, occurrence starts and occurrences are only read. A
 * refused pin leaves every table as it was. Reasons are tested in the order 1, 12, 13.
 */
ngi_flip_answer ngi_pin(uint32_t term,                         /* its number; not below the term count is reason 13 */
                        uint32_t value,                        /* 0 to pin it at 0, any other to pin it at 1 */
                        uint32_t terms, uint32_t clauses,      /* the counts that the last call gave, */
                        uint32_t literals, uint32_t uncovered, /* all four of them */
                        NGI_TABLE_PARAMETERS(const, NGI_WRITTEN, NGI_WRITTEN));

/*
 * Lifts the pin of a term: clears its mark and nothing else, so that the term keeps its value until a walk or a flip list moves it. A term that
 * is free may be lifted too. The other ten tables are only read. A refused lifting leaves marks as it was. Reasons are tested in the order 1,
 * 12, 13.
 */
ngi_flip_answer ngi_lift(uint32_t term,                         /* its number; not below the term count is reason 13 */
                         uint32_t terms, uint32_t clauses,      /* the counts that the last call gave, */
                         uint32_t literals, uint32_t uncovered, /* all four of them */
                         NGI_TABLE_PARAMETERS(const, const, NGI_WRITTEN));

/* The answer to a run. */
typedef struct {
    uint32_t result; /* 1 a report was written, which may tell of a refused input; 0 refused */
    uint32_t reason; /* NGI_NO_REASON where a report was written, else NGI_TABLE_TOO_SHORT */
    size_t length;   /* of the report, in bytes; 0 where it was refused */
} ngi_run_answer;

/*
 * Runs an order sheet: what the program prints for the input, the report, stands first in out; the rest of out is as it was. The report ends
 * with byte 10, and no byte 0 is put after it. Where the input is refused, it tells the reason. Input over NGI_TEXT bytes and a refused text
 * leave 0 in every table up to its full size, a refused sheet leaves every table as it was, and a walk leaves its end; no sheet pins, so that
 * all its terms are free. Where a table or out is shorter than its full size, the call is refused for reason 1 and changes nothing.
 */
ngi_run_answer ngi_run(const uint8_t *input, size_t input_length, /* the lines of a sheet, then clause text */
                       NGI_TABLE_PARAMETERS(NGI_WRITTEN, NGI_WRITTEN, NGI_WRITTEN),
                       uint8_t *out, size_t out_length);          /* at least NGI_OUT_SIZE */

#ifdef __cplusplus
}
#endif

#endif
