/* Round numbers along an axis. */
#ifndef SCALE_H
#define SCALE_H

#include <stdint.h>

/* The least of 1, 2, 5, 10, 20, .. that goes into the span at most so often. */
int64_t scale_step(int64_t span, int64_t most);

/* The multiple of the step at or below the number, and the one at or above it. */
int64_t scale_below(int64_t number, int64_t step);
int64_t scale_above(int64_t number, int64_t step);

#endif
