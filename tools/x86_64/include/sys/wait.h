/* The functions of the C library that are called here. */
#ifndef SYS_WAIT_H
#define SYS_WAIT_H

#include <unistd.h>

pid_t waitpid(pid_t child, int *status, int how);

#endif
