/* The functions of the C library that are called here. */
#ifndef UNISTD_H
#define UNISTD_H

#include <stddef.h>

typedef long ssize_t;
typedef int pid_t;

pid_t fork(void);
int dup2(int file, int as);
int execv(const char *program, char *const *words);
_Noreturn void _exit(int status);
ssize_t read(int file, void *memory, size_t size);
ssize_t write(int file, const void *memory, size_t size);

#endif
