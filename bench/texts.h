/* Texts for readings, put together byte by byte. */
#ifndef TEXTS_H
#define TEXTS_H

#include "common.h"

enum { READINGS_TIMED = 16, RUBBISH = 0x5a };

typedef __typeof__(ngi_read) read_function;

struct text {
    uint32_t length;
    uint8_t bytes[NGI_TEXT];
};

static void put(struct text *text, uint32_t byte)
{
    if (text->length == NGI_TEXT)
        fail("the text is too long");
    text->bytes[text->length++] = (uint8_t)byte;
}

/* Whether a term is among those drawn from one place up to another. */
static int stands(const uint32_t *drawn, uint32_t from, uint32_t to, uint32_t term)
{
    for (uint32_t at = from; at < to; at++)
        if (drawn[at] == term)
            return 1;
    return 0;
}

static ngi_read_answer read_text(read_function *read, const struct text *text, struct tables *t)
{
    return read(text->bytes, text->length, NGI_LEND(t->lent));
}

static void read_accepted(read_function *read, const struct text *text, struct tables *t, uint32_t readings)
{
    for (uint32_t done = 0; done < readings; done++)
        if (read_text(read, text, t).result != 1)
            fail("the text is refused");
}

/* Microseconds for a reading by each side. */
static int time_readings(timed_call *read_by)
{
    double least[SIDES] = {0};
    for (int round = 0; round < ROUNDS; round++)
        take_turns(read_by, 0, READINGS_TIMED, least);
    print_times(least);
    return 0;
}

#endif
