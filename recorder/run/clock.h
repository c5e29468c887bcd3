/*
 * The time that has passed since some moment, whatever is done to the clock.
 */
#ifndef RECORD_CLOCK_H
#define RECORD_CLOCK_H

#include <time.h>

static inline long long microseconds(void)
{
    struct timespec now;
    clock_gettime(CLOCK_MONOTONIC, &now);
    return now.tv_sec * 1000000LL + now.tv_nsec / 1000;
}

#endif
