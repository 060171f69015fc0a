/* The time, for measuring. */
#ifndef BENCH_CLOCK_H
#define BENCH_CLOCK_H

#include <time.h>

static inline double now_ns(void)
{
    struct timespec t;
    clock_gettime(CLOCK_MONOTONIC, &t);
    return 1e9 * (double)t.tv_sec + (double)t.tv_nsec;
}

/* Keeps the time since start, if it is the shortest so far. */
static inline void keep_shortest(double *shortest, double start)
{
    double taken = now_ns() - start;
    if (*shortest == 0 || taken < *shortest) {
        *shortest = taken;
    }
}

#endif
