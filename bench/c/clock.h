/* The time that has passed, in nanoseconds. A file that includes this first defines _POSIX_C_SOURCE. */
#ifndef CLOCK_H
#define CLOCK_H

#include <time.h>

static double now(void) {
    struct timespec time;
    clock_gettime(CLOCK_MONOTONIC, &time);
    return 1e9 * (double)time.tv_sec + (double)time.tv_nsec;
}

#endif
