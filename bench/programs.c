/*
 * Order sheets, and the times of two programs that are given one as standard input. KIND is as in files.h, or example, for the sheet that the
 * scope document prints, whose other words are passed over.
 *
 *   programs sheet KIND TERMS CLAUSES SEED       prints an order sheet with the clauses of this file
 *   programs time SHEET NGI PLAIN [LOADER...]    microseconds from start to exit: the first program's, the plain one's, and how many times
 *                                                as quick the first is; LOADER are the words before a program that start it
 */
#include <fcntl.h>
#include <stdint.h>
#include <stdio.h>
#include <string.h>
#include <sys/wait.h>
#include <unistd.h>

#include "common.h"
#include "files.h"

enum { FLIPS = 100000, BIAS = 400, ROUNDS_OF_STARTS = 100, MOST_WORDS = 8 };

/* --- sheets --- */

static void print_literal(const struct tables *t, uint32_t literal)
{
    char name[sizeof *t->lent.names + 1] = {0};
    memcpy(name, &t->lent.names[literal / 2], sizeof *t->lent.names);
    printf("%s%s", literal & 1 ? "~" : "", name);
}

static void print_clauses(const struct tables *t)
{
    for (uint32_t clause = 0; clause < t->clauses; clause++)
        for (uint32_t at = t->lent.starts[clause]; at < t->lent.starts[clause + 1]; at++) {
            print_literal(t, t->lent.literals_table[at]);
            putchar(at + 1 < t->lent.starts[clause + 1] ? ' ' : '\n');
        }
}

static int print_sheet(const char *kind, uint32_t terms, uint32_t clauses, uint32_t seed)
{
    static struct tables file;
    if (strcmp(kind, "example") == 0) {
        printf("seed=1\nflips=10\nwalks=1\nbias=400\na b\n~a b\n");
        return 0;
    }
    make_file(&file, kind, terms, clauses);
    printf("seed=%u\nflips=%u\nwalks=1\nbias=%u\n", seed, FLIPS, BIAS);
    print_clauses(&file);
    return 0;
}

/* --- times --- */

static const char *sheet;
static char *commands[SIDES][MOST_WORDS];

static _Noreturn void start(char **words)
{
    if (dup2(open(sheet, O_RDONLY), 0) == 0 && dup2(open("/dev/null", O_WRONLY), 1) == 1)
        execv(words[0], words);
    _exit(1);
}

static void run_by(int side, uint32_t flips)
{
    pid_t child = fork();
    int status;
    (void)flips;
    if (child == 0)
        start(commands[side]);
    if (child < 0 || waitpid(child, &status, 0) != child || status != 0)
        fail("a program does not start, or ends with an error");
}

static int time_both(char **programs, char **loader, int loader_words)
{
    double least[SIDES] = {0};
    for (int side = 0; side < SIDES; side++) {
        memcpy(commands[side], loader, (size_t)loader_words * sizeof *loader);
        commands[side][loader_words] = programs[side];
    }
    for (int round = 0; round < ROUNDS_OF_STARTS; round++)
        take_turns(run_by, 0, 1, least);
    print_times(least);
    return 0;
}

int main(int count, char **words)
{
    if (count == 6 && strcmp(words[1], "sheet") == 0)
        return print_sheet(words[2], number(words[3]), number(words[4]), number(words[5]));
    if (count >= 5 && count < 5 + MOST_WORDS - 1 && strcmp(words[1], "time") == 0) {
        sheet = words[2];
        return time_both(&words[3], &words[5], count - 5);
    }
    printf("usage: programs sheet KIND TERMS CLAUSES SEED, or programs time SHEET NGI PLAIN [LOADER...]\n");
    return 2;
}
