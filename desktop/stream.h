/* Standard input, read as it comes. */
#ifndef STREAM_H
#define STREAM_H

#include "file.h"
#include "tell.h"

#include <stdbool.h>
#include <stddef.h>
#include <stdint.h>

/* As long as it takes. */
#define FOR_EVER (-1)

struct stream {
    struct file file;
    bool serial; /* a serial line, which has no end of its own */
};

/* Opens standard input. A terminal that is not raw, as the one at which the user sits, is told and fails. */
enum outcome stream_open(struct stream *stream);

/* Waits until there is something to read, or the stream's end, but not longer than so many milliseconds. */
enum outcome stream_wait(const struct stream *stream, int milliseconds, bool *came);

/* Reads what there is, at most so many bytes; none at the stream's end. */
enum outcome stream_read(const struct stream *stream, uint8_t *bytes, size_t size, size_t *count);

#endif
