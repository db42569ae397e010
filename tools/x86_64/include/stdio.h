/* The functions of the C library that are called here. */
#ifndef STDIO_H
#define STDIO_H

#include <stddef.h>

typedef struct _IO_FILE FILE;

extern FILE *stdin;

int printf(const char *format, ...);
int putchar(int byte);
size_t fread(void *memory, size_t size, size_t count, FILE *file);

#endif
