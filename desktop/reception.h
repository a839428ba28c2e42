/* An image that comes in chunks, through the library's reader. */
#ifndef RECEPTION_H
#define RECEPTION_H

#include "hsc.h"
#include "image.h"
#include "table.h"
#include "tell.h"

#include <stdbool.h>
#include <stddef.h>
#include <stdint.h>

struct reception {
    struct image image;           /* as it comes; no bytes before its header is whole */
    size_t bytes;                 /* how many have come */
    uint8_t *table;               /* the snapshots that the reader gives */
    uint32_t snapshots;           /* how many it has given */
    struct comparison comparison; /* at the end: the table that came beside that one */
    uint8_t reader[HSC_READER_SIZE];
    uint8_t header[HSC_HEADER_SIZE];
};

/* path: what a message calls the sender. reception_free is owed. */
void reception_begin(struct reception *reception, const char *path);

/* Takes a chunk of any size. The first fault is told with the byte at which it was seen, and refused. */
enum outcome reception_take(struct reception *reception, const uint8_t *chunk, size_t size);

/*
 * No more will come. Of an image that is whole, the table becomes the reader's, which is what replay writes; one that
 * is not is told and refused.
 */
enum outcome reception_end(struct reception *reception);

/* How many events have come whole. */
uint32_t reception_events(const struct reception *reception);

/* Whether the image has come to its last byte. */
bool reception_is_whole(const struct reception *reception);

void reception_free(struct reception *reception);

#endif
