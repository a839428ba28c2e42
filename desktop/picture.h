/* What is to be seen of a night, thinned to the columns of a picture. */
#ifndef PICTURE_H
#define PICTURE_H

#include "curve.h"
#include "hsc.h"
#include "night.h"
#include "tell.h"
#include "walk.h"

#include <stdbool.h>
#include <stdint.h>

/* The presets and limits, HIP to UNF, stand side by side among the settings. */
#define LIMIT_COUNT (HSC_UNF - HSC_HIP + 1)

struct marks {
    uint32_t count; /* of events */
    bool at[COLUMN_COUNT];
};

struct picture {
    struct curve count;
    struct curve limits[LIMIT_COUNT]; /* from HIP on: while they are active and have a say */
    struct marks marks[MARK_COUNT];
    uint32_t gaps; /* runs of blank events */
};

/* The column in which the event's effect is seen; for the place after the run, the one after the last. */
uint32_t picture_column(const struct night *night, uint32_t place);

/* Takes the counter along the run. */
enum outcome picture_take(struct picture *picture, const struct night *night);

#endif
