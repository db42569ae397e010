/* The plain C versions of the library's calls: each takes the same and answers the same. */
#ifndef PLAIN_H
#define PLAIN_H

#include "ngiyarumba.h"

__typeof__(ngi_flip) plain_flip;
__typeof__(ngi_read) plain_read;
__typeof__(ngi_walk) plain_walk;

/* Of the parameters of such a call the tables, and whether they have their full sizes. */
#define TABLES names, values, starts, literals_table, occurrence_starts, occurrences, true_counts, break_counts, uncovered_list, places, marks
#define ARE_FULL                                                                                               \
    (names_length >= NGI_NAMES_SIZE && values_length >= NGI_VALUES_SIZE && starts_length >= NGI_STARTS_SIZE && \
     literals_table_length >= NGI_LITERALS_SIZE && occurrence_starts_length >= NGI_OCCURRENCE_STARTS_SIZE &&   \
     occurrences_length >= NGI_OCCURRENCES_SIZE && true_counts_length >= NGI_TRUE_COUNTS_SIZE &&               \
     break_counts_length >= NGI_BREAK_COUNTS_SIZE && uncovered_list_length >= NGI_UNCOVERED_LIST_SIZE &&       \
     places_length >= NGI_PLACES_SIZE && marks_length >= NGI_MARKS_SIZE)

#endif
