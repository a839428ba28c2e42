/* A value along the trace, thinned to the columns of a picture: each keeps its lowest, highest and last. */
#include "curve.h"

void curve_note(struct curve *curve, uint32_t column, int32_t value)
{
    struct column *at = &curve->columns[column];

    if (!at->any)
        *at = (struct column){.any = true, .lowest = value, .highest = value};
    if (value < at->lowest)
        at->lowest = value;
    if (value > at->highest)
        at->highest = value;
    at->last = value;
    at->out = false;
}

void curve_leave(struct curve *curve, uint32_t column)
{
    curve->columns[column].out = true;
}

/* The value goes on through the column. */
static bool stays(const struct column *column, int32_t value)
{
    return !column->out && (!column->any || (column->lowest == value && column->highest == value));
}

bool curve_next(const struct curve *curve, struct segment *segment)
{
    uint32_t start = segment->end;

    while (start < COLUMN_COUNT && (!curve->columns[start].any || curve->columns[start].out))
        start++;
    if (start == COLUMN_COUNT)
        return false;
    *segment = (struct segment){.start = start, .end = start + 1, .value = curve->columns[start].last};
    while (segment->end < COLUMN_COUNT && stays(&curve->columns[segment->end], segment->value))
        segment->end++;
    return true;
}
