/* A trace in memory: the events of an image, or those of a file that has nothing else. */
#ifndef TRACE_H
#define TRACE_H

#include "tell.h"

#include <stdbool.h>
#include <stddef.h>
#include <stdint.h>

struct trace {
    const char *path;
    uint8_t *bytes; /* of the file */
    const uint8_t *events;
    size_t size; /* of the events, in bytes */
};

/*
 * Reads the trace of an image, as image_load does, or of a file of bare events, whose length and events are not looked
 * at. Where it is done, free(trace->bytes) is owed.
 */
enum outcome trace_load(struct trace *trace, const char *path, bool bare);

const uint8_t *trace_event(const struct trace *trace, uint32_t place);

#endif
