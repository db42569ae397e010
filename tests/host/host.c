/*
 * Calls the library and the reader for programs that cannot link them: each request on standard input is one call, its answer goes to standard output.
 * Numbers are little-endian; a request begins with its opcode, and everything but entries and bytes of text is 32 bits wide.
 *
 *   opcode    request                                                    answer
 *   1 lend    the lengths of the eleven tables, then their entries       none: the tables are kept for the calls that follow
 *   2 flip    the list's length, its entries, four counts                status, the six numbers of ngi_flip_answer, list, eleven tables
 *   3 read    the text's length, its bytes                               status, the seven numbers of ngi_read_answer, text, eleven tables
 *   4 walk    seed, flips, walks, bias, even, four counts                status, the eight numbers of ngi_walk_answer, eleven tables
 *   5 draw    a state                                                    the three numbers of ngi_drawn
 *   6 choice  a state, how many to choose among                          the same
 *   7 heads   a state, a bias                                            the same
 *   8 run     the lengths of input and output, then the bytes of each    status, the three numbers of ngi_run_answer, input, output, eleven tables
 *   9 follow  0 for the reader or 1 for its cursor, the lengths of text  status, a row of seven numbers for each step, text
 *             and script, place, line, then the bytes of each
 *  10 even    a state, how many to choose among                          the three numbers of ngi_drawn
 *  11 pin     a term, a value, four counts                               status, the six numbers of ngi_flip_answer, eleven tables
 *  12 lift    a term, four counts                                        the same
 *  13 number  a numbered text's length, its bytes                        as 3
 *
 * A script's byte is 0 to pass and 1 to tell the next item. The place and the line where following begins, and the rows, are 64 bits wide.
 *
 * The length in ngi_run_answer is 64 bits wide. Guards stand before and after all that is lent. The status is 0 where every guard is as it was,
 * else one more than the number of the first table that has lost one, or 12 for the list, the text or the input, or 13 for the output. The end
 * of the input ends the program.
 */
#include <stdint.h>
#include <stdlib.h>
#include <string.h>
#include <unistd.h>

#include "ngiyarumba.h"

enum { LEND = 1, FLIP = 2, READ = 3, WALK = 4, DRAW = 5, CHOICE = 6, HEADS = 7, RUN = 8, FOLLOW = 9, EVEN = 10, PIN = 11, LIFT = 12, NUMBER = 13 };
enum { TABLES = 11, GUARD = 64 };
enum { INPUT_CUT = 1, OUTPUT_CLOSED = 2, NO_MEMORY = 3, UNKNOWN_OPCODE = 4 };

/* --- the calls of libreader.a, which has no header --- */

/* What is told, and where reading goes on; the fields are the numbers of a row, in their order. */
typedef struct {
    uint32_t kind, reason;
    size_t line;
    uint64_t name;
    uint32_t negated;
    size_t at, below;
} reader_told;

reader_told reader_token(const uint8_t *text, size_t text_len, size_t at, size_t line);
size_t reader_line_end(const uint8_t *text, size_t text_len, size_t at);
reader_told cursor_token(const uint8_t *text, size_t text_len, size_t at, size_t line);
size_t cursor_pass(const uint8_t *text, size_t text_len, size_t at, size_t line);

/* Entries to lend, with GUARD bytes before and after them. */
struct lent {
    unsigned char *block;
    size_t count, width;
};

static struct lent tables[TABLES] = {{0, 0, 8}, {0, 0, 4}, {0, 0, 2}, {0, 0, 2}, {0, 0, 2}, {0, 0, 2},
                                     {0, 0, 2}, {0, 0, 2}, {0, 0, 2}, {0, 0, 2}, {0, 0, 1}};
static struct lent list = {0, 0, 2}, text = {0, 0, 1}, input = {0, 0, 1}, output = {0, 0, 1};

/* What following a script takes and gives: bytes, and seven numbers for each of them. */
static struct lent script = {0, 0, 1}, rows = {0, 0, 7 * sizeof(uint64_t)};

/* What a call is lent beside the tables; NULL ends it. */
static const struct lent *const nothing[] = {NULL}, *const with_list[] = {&list, NULL}, *const with_text[] = {&text, NULL},
                         *const with_input_and_output[] = {&input, &output, NULL};

/* --- input and output --- */

/* False where the input has ended before the first byte. */
static int take_or_end(void *memory, size_t size)
{
    for (size_t got = 0; got < size;) {
        ssize_t more = read(0, (unsigned char *)memory + got, size - got);
        if (more <= 0 && got == 0)
            return 0;
        if (more <= 0)
            exit(INPUT_CUT);
        got += (size_t)more;
    }
    return 1;
}

static void take(void *memory, size_t size)
{
    if (!take_or_end(memory, size))
        exit(INPUT_CUT);
}

static uint32_t take_number(void)
{
    uint32_t number;
    take(&number, sizeof number);
    return number;
}

static void give(const void *memory, size_t size)
{
    for (size_t given = 0; given < size;) {
        ssize_t more = write(1, (const unsigned char *)memory + given, size - given);
        if (more <= 0)
            exit(OUTPUT_CLOSED);
        given += (size_t)more;
    }
}

/* --- what is lent --- */

static void *entries(const struct lent *lent)
{
    return lent->block + GUARD;
}

static unsigned char *after(const struct lent *lent)
{
    return lent->block + GUARD + lent->count * lent->width;
}

static unsigned char guard_byte(size_t at)
{
    return (unsigned char)(0xa5 ^ at);
}

static void set_guards(struct lent *lent)
{
    for (size_t at = 0; at < GUARD; at++)
        lent->block[at] = after(lent)[at] = guard_byte(at);
}

static int guards_stand(const struct lent *lent)
{
    for (size_t at = 0; at < GUARD; at++)
        if (lent->block[at] != guard_byte(at) || after(lent)[at] != guard_byte(at))
            return 0;
    return 1;
}

/* Makes room for this many entries in place of those before. */
static void renew(struct lent *lent, uint32_t count)
{
    free(lent->block);
    lent->count = count;
    lent->block = malloc(count * lent->width + 2 * GUARD);
    if (lent->block == NULL)
        exit(NO_MEMORY);
    set_guards(lent);
}

static void take_entries(struct lent *lent)
{
    take(entries(lent), lent->count * lent->width);
}

static void give_entries(const struct lent *lent)
{
    give(entries(lent), lent->count * lent->width);
}

/* Of the tables and of what was lent beside them. */
static uint32_t status(const struct lent *const *beside)
{
    for (uint32_t table = 0; table < TABLES; table++)
        if (!guards_stand(&tables[table]))
            return table + 1;
    for (uint32_t at = 0; beside[at] != NULL; at++)
        if (!guards_stand(beside[at]))
            return TABLES + 1 + at;
    return 0;
}

/* --- requests --- */

static void lend(void)
{
    for (int table = 0; table < TABLES; table++)
        renew(&tables[table], take_number());
    for (int table = 0; table < TABLES; table++)
        take_entries(&tables[table]);
}

static void give_answer(const void *answer, size_t size, const struct lent *const *beside)
{
    uint32_t found = status(beside);
    give(&found, sizeof found);
    give(answer, size);
    for (; *beside != NULL; beside++)
        give_entries(*beside);
    for (int table = 0; table < TABLES; table++)
        give_entries(&tables[table]);
}

#define LENT(lent) entries(&(lent)), (lent).count
#define LENT_TABLES                                                                              \
    LENT(tables[0]), LENT(tables[1]), LENT(tables[2]), LENT(tables[3]), LENT(tables[4]),         \
        LENT(tables[5]), LENT(tables[6]), LENT(tables[7]), LENT(tables[8]), LENT(tables[9]),     \
        LENT(tables[10])

static void flip(void)
{
    uint32_t counts[4];
    renew(&list, take_number());
    take_entries(&list);
    take(counts, sizeof counts);
    ngi_flip_answer answer = ngi_flip(LENT(list), counts[0], counts[1], counts[2], counts[3], LENT_TABLES);
    give_answer(&answer, sizeof answer, with_list);
}

static void read_text(__typeof__(ngi_read) *read_by)
{
    renew(&text, take_number());
    take_entries(&text);
    ngi_read_answer answer = read_by(LENT(text), LENT_TABLES);
    give_answer(&answer, sizeof answer, with_text);
}

static void walk(void)
{
    uint32_t order[5], counts[4];
    take(order, sizeof order);
    take(counts, sizeof counts);
    ngi_walk_answer answer =
        ngi_walk(order[0], order[1], order[2], order[3], order[4], counts[0], counts[1], counts[2], counts[3], LENT_TABLES);
    give_answer(&answer, sizeof answer, nothing);
}

static void pin(void)
{
    uint32_t term_and_value[2], counts[4];
    take(term_and_value, sizeof term_and_value);
    take(counts, sizeof counts);
    ngi_flip_answer answer = ngi_pin(term_and_value[0], term_and_value[1], counts[0], counts[1], counts[2], counts[3], LENT_TABLES);
    give_answer(&answer, sizeof answer, nothing);
}

static void lift(void)
{
    uint32_t counts[4];
    uint32_t term = take_number();
    take(counts, sizeof counts);
    ngi_flip_answer answer = ngi_lift(term, counts[0], counts[1], counts[2], counts[3], LENT_TABLES);
    give_answer(&answer, sizeof answer, nothing);
}

static void run(void)
{
    renew(&input, take_number());
    renew(&output, take_number());
    take_entries(&input);
    take_entries(&output);
    ngi_run_answer answer = ngi_run(LENT(input), LENT_TABLES, LENT(output));
    give_answer(&answer, sizeof answer, with_input_and_output);
}

static reader_told told(int by_cursor, size_t at, size_t line)
{
    return by_cursor ? cursor_token(LENT(text), at, line) : reader_token(LENT(text), at, line);
}

/* Passing tells nothing but the place it goes to. */
static reader_told passed(int by_cursor, size_t at, size_t line)
{
    reader_told nothing_told = {0};
    nothing_told.at = by_cursor ? cursor_pass(LENT(text), at, line) : reader_line_end(LENT(text), at);
    nothing_told.below = line;
    return nothing_told;
}

/* Goes through the script from a place and its line, and leaves a row for each of its steps. */
static void fill_rows(int by_cursor, size_t at, size_t line)
{
    const unsigned char *steps = entries(&script);
    uint64_t(*row)[7] = entries(&rows);
    for (size_t step = 0; step < script.count; step++) {
        reader_told t = steps[step] ? told(by_cursor, at, line) : passed(by_cursor, at, line);
        const uint64_t numbers[7] = {t.kind, t.reason, t.line, t.name, t.negated, t.at, t.below};
        memcpy(row[step], numbers, sizeof numbers);
        at = t.at;
        line = t.below;
    }
}

static void follow(void)
{
    uint64_t place_and_line[2];
    uint32_t by_cursor = take_number();
    renew(&text, take_number());
    renew(&script, take_number());
    renew(&rows, (uint32_t)script.count);
    take(place_and_line, sizeof place_and_line);
    take_entries(&text);
    take_entries(&script);
    fill_rows(by_cursor != 0, place_and_line[0], place_and_line[1]);
    uint32_t lost = guards_stand(&text) ? 0 : TABLES + 1;
    give(&lost, sizeof lost);
    give_entries(&rows);
    give_entries(&text);
}

static void give_drawn(ngi_drawn drawn)
{
    give(&drawn, sizeof drawn);
}

static void draw(void)
{
    give_drawn(ngi_draw(take_number()));
}

static void choice(void)
{
    uint32_t state = take_number();
    give_drawn(ngi_choice(state, take_number()));
}

static void choice_even(void)
{
    uint32_t state = take_number();
    give_drawn(ngi_choice_even(state, take_number()));
}

static void heads(void)
{
    uint32_t state = take_number();
    give_drawn(ngi_heads(state, take_number()));
}

int main(void)
{
    uint32_t opcode;
    while (take_or_end(&opcode, sizeof opcode))
        switch (opcode) {
        case LEND:
            lend();
            break;
        case FLIP:
            flip();
            break;
        case READ:
            read_text(ngi_read);
            break;
        case WALK:
            walk();
            break;
        case DRAW:
            draw();
            break;
        case CHOICE:
            choice();
            break;
        case HEADS:
            heads();
            break;
        case RUN:
            run();
            break;
        case FOLLOW:
            follow();
            break;
        case EVEN:
            choice_even();
            break;
        case PIN:
            pin();
            break;
        case LIFT:
            lift();
            break;
        case NUMBER:
            read_text(ngi_read_numbered);
            break;
        default:
            exit(UNKNOWN_OPCODE);
        }
    return 0;
}
