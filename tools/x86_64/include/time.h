/* The functions of the C library that are called here. */
#ifndef TIME_H
#define TIME_H

struct timespec {
    long tv_sec;
    long tv_nsec;
};

#define CLOCK_MONOTONIC 1

int clock_gettime(int clock, struct timespec *now);

#endif
