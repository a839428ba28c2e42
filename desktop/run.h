/* Some events of an image that stand in a row, as the user asks for them. */
#ifndef RUN_H
#define RUN_H

#include "image.h"
#include "tell.h"

#include <stdint.h>

/* The events from one place to before another. */
struct run {
    uint32_t from;
    uint32_t end;
};

/* A number that the user may give. */
struct given {
    const char *name;
    const char *text; /* NULL where it is not given */
};

/*
 * The events from a place on, else from the first, and so many of them, else as many as there are. The run ends where
 * the image does; a place past that is told and fails.
 */
enum outcome run_parse(struct run *run, const struct image *image, const struct given *from, const struct given *count);

#endif
