/* The functions of the C library that are called here. */
#ifndef STDLIB_H
#define STDLIB_H

#include <stddef.h>

void *malloc(size_t size);
void free(void *memory);
_Noreturn void exit(int status);
long strtol(const char *text, char **end, int base);

#endif
