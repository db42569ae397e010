/* ngi_flip as one would first write it in C. */
#include "plain_tables.h"

static int names_unknown_term(const uint16_t *list, size_t length, uint32_t terms)
{
    for (size_t at = 0; at < length; at++)
        if (list[at] >= terms)
            return 1;
    return 0;
}

static int names_pinned_term(const uint16_t *list, size_t length, const uint8_t *marks)
{
    for (size_t at = 0; at < length; at++)
        if (marks[list[at]] != 0)
            return 1;
    return 0;
}

static ngi_flip_answer answer(const struct tables *t, uint32_t reason)
{
    return (ngi_flip_answer){reason == NGI_NO_REASON, reason, t->terms, t->clauses, t->literal_count, t->uncovered};
}

ngi_flip_answer plain_flip(const uint16_t *list, size_t list_length,
                           uint32_t terms, uint32_t clauses, uint32_t literals, uint32_t uncovered,
                           NGI_TABLE_PARAMETERS(const, NGI_WRITTEN, const))
{
    struct tables t = {terms, clauses, literals, uncovered, TABLES};
    if (!ARE_FULL)
        return answer(&t, NGI_TABLE_TOO_SHORT);
    if (list_length > NGI_LIST)
        return answer(&t, NGI_LIST_TOO_LONG);
    if (!agree(&t))
        return answer(&t, NGI_TABLES_DISAGREE);
    if (names_unknown_term(list, list_length, terms))
        return answer(&t, NGI_UNKNOWN_TERM);
    if (names_pinned_term(list, list_length, marks))
        return answer(&t, NGI_PINNED_TERM);
    for (size_t at = 0; at < list_length; at++)
        flip(&t, list[at]);
    return answer(&t, NGI_NO_REASON);
}
