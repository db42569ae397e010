/* The functions of the C library that are called here. */
#ifndef FCNTL_H
#define FCNTL_H

#define O_RDONLY 0
#define O_WRONLY 1

int open(const char *path, int how, ...);

#endif
