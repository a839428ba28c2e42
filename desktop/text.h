/* A text of events: lines as hsc-events(5) has them. */
#ifndef TEXT_H
#define TEXT_H

#include "file.h"
#include "hsc.h"
#include "tell.h"

#include <stdbool.h>
#include <stddef.h>
#include <stdint.h>

/* The longest text that is read: every event of the largest image, and room for remarks. */
#define TEXT_LONGEST ((size_t)256 * HSC_MAX_EVENTS)

/* The events of a text. */
struct encoding {
    uint8_t *events;
    uint32_t count;
    bool placed;   /* a line named its place */
    int64_t start; /* the place of the first event, then */
};

/*
 * Encodes a text. The first line that is no event, or whose place does not follow those before it, is told and refused.
 * Where it is done, free(encoding->events) is owed.
 */
enum outcome text_encode(struct encoding *encoding, const struct contents *text);

#endif
