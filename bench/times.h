/* What the measurements share: the clock, and the median of what it gave. */
#ifndef TIMES_H
#define TIMES_H

#ifndef _POSIX_C_SOURCE
#error "define _POSIX_C_SOURCE before all headers, for clock_gettime"
#endif
#include "judged.h"

#include <time.h>

/* The processor's time that this program has had: what else the machine does is not in it. */
static inline uint64_t now_in_nanoseconds(void)
{
    struct timespec now;
    if (clock_gettime(CLOCK_PROCESS_CPUTIME_ID, &now) != 0)
        give_up("clock_gettime", "no clock");
    return (uint64_t)now.tv_sec * 1000000000 + (uint64_t)now.tv_nsec;
}

static inline int by_size(const void *left, const void *right)
{
    uint64_t a = *(const uint64_t *)left, b = *(const uint64_t *)right;
    return (a > b) - (a < b);
}

static inline double median(uint64_t *times, size_t runs)
{
    qsort(times, runs, sizeof times[0], by_size);
    return (double)times[runs / 2];
}

#endif
