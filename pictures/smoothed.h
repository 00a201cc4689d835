/* The samples of what tetrolet_smooth gives. */
#ifndef SMOOTHED_H
#define SMOOTHED_H

#include <stddef.h>
#include <stdint.h>

/* n entries of a result, over 16 * 4^levels, rounded to nearest, halves upward, and held to 0 and 4,095. */
static inline void smoothed_samples(const int64_t *result, size_t n, size_t levels, uint16_t *samples)
{
    int64_t whole = (int64_t)16 << 2 * levels;
    for (size_t k = 0; k < n; k++) {
        int64_t up = result[k] + whole / 2;
        samples[k] = (uint16_t)(up < 0 ? 0 : up / whole > 4095 ? 4095 : up / whole);
    }
}

#endif
