/* The counts of a night: the accumulator before and after each event of a run, as the library draws it. */
#ifndef NIGHT_H
#define NIGHT_H

#include "hsc.h"
#include "image.h"
#include "run.h"
#include "tell.h"

#include <stdint.h>

struct night {
    const struct image *image;
    struct run run;
    uint8_t before[HSC_SNAPSHOT_SIZE]; /* the state before the run */
    int32_t *counts;                   /* the count then, and after each event of the run */
};

/*
 * Draws the run from the state that a replay of the events before it leaves; the table is not looked at. An event up to
 * the run's end that is not legal is told and refused. Where it is done, night_free is owed.
 */
enum outcome night_draw(struct night *night, const struct image *image, const struct run *run);

void night_free(struct night *night);

/* How many events are drawn. */
uint32_t night_events(const struct night *night);

#endif
