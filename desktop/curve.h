/* A value along the trace, thinned to the columns of a picture. */
#ifndef CURVE_H
#define CURVE_H

#include <stdbool.h>
#include <stdint.h>

#define COLUMN_COUNT 960

/* The values that come in a column; the one before goes on until then. */
struct column {
    bool any; /* a value comes */
    bool out; /* at its end no value holds */
    int32_t lowest;
    int32_t highest;
    int32_t last;
};

struct curve {
    struct column columns[COLUMN_COUNT];
};

/* One value from a column to before another. */
struct segment {
    uint32_t start;
    uint32_t end;
    int32_t value;
};

/* A value comes in the column, after those that came before. */
void curve_note(struct curve *curve, uint32_t column, int32_t value);

/* From here on no value holds. */
void curve_leave(struct curve *curve, uint32_t column);

/* Moves on to the next segment; at first it ends at 0. False where there is none. */
bool curve_next(const struct curve *curve, struct segment *segment);

#endif
