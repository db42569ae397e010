/*
 * Two placements are settled: they are pinned, and no walk moves them. The merge is that of sheets/merge.txt, where the name can:riv stands
 * for: Canals goes under Rivers. After `tools/staticlib ngiyarumba`, from the folder above this one:
 *
 *   cc -Iinclude examples/pins.c target/staticlib/libngiyarumba.a -o pins && ./pins
 *
 * prints what stands in pins.out.
 */
#include <stdio.h>
#include <stdlib.h>
#include <string.h>

#include "ngiyarumba.h"

static const char text[] = "bil:riv bil:wet\nbor:sup bor:wet\ncan:riv can:sup\ncrk:riv crk:wet\nest:cst est:riv\n"
                           "~bil:riv ~bil:wet\n~bor:sup ~bor:wet\n~can:riv ~can:sup\n~crk:riv ~crk:wet\n~est:cst ~est:riv\n"
                           "~can:riv ~crk:riv\n~bil:wet ~bor:wet\n~bil:wet ~crk:wet\n~bor:wet ~crk:wet\n~crk:riv est:riv\n";

static ngi_tables t;                                 /* all eleven, at their full sizes */
static uint32_t terms, clauses, literals, uncovered; /* as the last call gave them */

static void end_if_refused(uint32_t reason)
{
    if (reason == NGI_NO_REASON)
        return;
    printf("refused for reason %u\n", reason);
    exit(1);
}

/* The number of the term with this name, of at most 8 bytes; for a name that is not there one that every call refuses. */
static uint16_t number_of(const char *name)
{
    uint16_t term = 0;
    uint64_t bytes = 0;
    memcpy(&bytes, name, strlen(name));
    while (term < terms && t.names[term] != bytes)
        term++;
    return term;
}

static void pin(const char *name, uint32_t value)
{
    ngi_flip_answer f = ngi_pin(number_of(name), value, terms, clauses, literals, uncovered, NGI_LEND(t));
    end_if_refused(f.reason);
    uncovered = f.uncovered;
}

static void lift(const char *name)
{
    end_if_refused(ngi_lift(number_of(name), terms, clauses, literals, uncovered, NGI_LEND(t)).reason);
}

/* Prints the placements that a walk from this seed chooses, a * after those that are pinned. */
static void walk(uint32_t seed)
{
    ngi_walk_answer a = ngi_walk(seed, 1000, 10, 400, 0, terms, clauses, literals, uncovered, NGI_LEND(t));
    end_if_refused(a.reason);
    uncovered = a.uncovered;
    printf("seed %u, %s:", seed, a.result == 1 ? "found" : "gave up");
    for (uint32_t term = 0; term < terms; term++)
        if (t.values[term / 32] >> term % 32 & 1)
            printf(" %.8s%s", (const char *)&t.names[term], t.marks[term] == 2 ? "*" : "");
    printf("\n");
}

static void try_to_flip(const char *name)
{
    uint16_t list[] = {number_of(name)};
    ngi_flip_answer f = ngi_flip(list, 1, terms, clauses, literals, uncovered, NGI_LEND(t));
    printf("A flip list with %s is %s, reason %u.\n", name, f.result == 1 ? "applied" : "refused", f.reason);
}

static void walk_three_times(const char *said)
{
    printf("%s\n", said);
    for (uint32_t seed = 1; seed <= 3; seed++)
        walk(seed);
}

int main(void)
{
    ngi_read_answer r = ngi_read((const uint8_t *)text, sizeof text - 1, NGI_LEND(t));
    end_if_refused(r.reason);
    terms = r.terms, clauses = r.clauses, literals = r.literals, uncovered = r.uncovered;
    walk_three_times("No term is pinned.");
    pin("can:riv", 1);
    pin("est:cst", 1);
    walk_three_times("Canals are pinned under Rivers, Estuaries under Coasts.");
    try_to_flip("can:riv");
    lift("est:cst");
    walk_three_times("Estuaries are free again.");
}
