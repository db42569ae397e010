/* The functions of the C library that are called here. */
#ifndef STRING_H
#define STRING_H

#include <stddef.h>

int memcmp(const void *one, const void *other, size_t size);
int strcmp(const char *one, const char *other);
size_t strlen(const char *text);
void *memcpy(void *to, const void *from, size_t size);
void *memset(void *memory, int byte, size_t size);

#endif
