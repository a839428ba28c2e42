/* An image put together from events. */
#ifndef ASSEMBLE_H
#define ASSEMBLE_H

#include "hsc.h"
#include "image.h"
#include "tell.h"

#include <stdint.h>

/* Events that stand in a row, and the path that they are from. */
struct row {
    const char *path;
    const uint8_t *events;
    uint32_t count; /* at most HSC_MAX_EVENTS */
};

/*
 * Makes the image of these events with its table replayed; last: the state after them. spacing: 1 to HSC_MAX_SPACING.
 * An event that is not legal is told and refused. Where it is done, image_free is owed.
 */
enum outcome assemble(struct image *image, const struct row *row, uint32_t spacing, uint8_t last[HSC_SNAPSHOT_SIZE]);

/*
 * The state before an event, or after all of them: those before it are replayed, as an image of their own, and the
 * stored table is not looked at. One of them that is not legal is told and refused.
 */
enum outcome replay_before(const struct image *image, uint32_t event, uint8_t state[HSC_SNAPSHOT_SIZE]);

#endif
