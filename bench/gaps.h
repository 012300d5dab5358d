/* Where the step test of a curve quits, for (a) and (b). */
#ifndef GAPS_H
#define GAPS_H

#include <stdbool.h>
#include <stdint.h>
#include <stdlib.h>

/* The largest gap between consecutive points, on every axis. */
static inline uint32_t largest_gap(const uint8_t *points)
{
    int largest = 0;
    for (int i = 0; i < 9; i++) {
        int gap = abs(points[i + 3] - points[i]);
        if (gap > largest)
            largest = gap;
    }
    return (uint32_t)largest;
}

static inline bool quits(const uint8_t *points, uint32_t n)
{
    return 3 * largest_gap(points) <= n;
}

#endif
