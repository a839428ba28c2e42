/* An image put together from events: header, events, and the table that replay writes. */
#include "assemble.h"

#include "bytes.h"
#include "header.h"

#include <stdlib.h>
#include <string.h>

static void write_header(const struct image *image)
{
    uint8_t *header = image->bytes;

    bytes_put(header + EVENTS_AT, image->events);
    bytes_put(header + EVENT_OFFSET_AT, HSC_HEADER_SIZE);
    bytes_put(header + SNAPSHOTS_AT, image->snapshots);
    bytes_put(header + SNAPSHOT_OFFSET_AT, HSC_HEADER_SIZE + HSC_EVENT_SIZE * image->events);
    bytes_put(header + SPACING_AT, image->spacing);
    bytes_put(header + SIXTH_AT, 0);
}

enum outcome assemble(struct image *image, const struct row *row, uint32_t spacing, uint8_t last[HSC_SNAPSHOT_SIZE])
{
    size_t event_size = (size_t)row->count * HSC_EVENT_SIZE;
    uint32_t snapshots = row->count / spacing + 1;
    uint64_t status;

    *image = (struct image){
        .path = row->path, .events = row->count, .snapshots = snapshots, .spacing = spacing,
        .size = HSC_HEADER_SIZE + event_size + (size_t)snapshots * HSC_SNAPSHOT_SIZE,
    };
    image->bytes = malloc(image->size);
    if (image->bytes == NULL)
        return tell_errno(row->path, "no memory for the image");
    write_header(image);
    memcpy(image->bytes + HSC_HEADER_SIZE, row->events, event_size);
    status = hsc_replay(image->bytes, image->size, last);
    if (status == HSC_DONE)
        return DONE;
    image_free(image);
    return tell_refusal(row->path, status);
}

enum outcome replay_before(const struct image *image, uint32_t event, uint8_t state[HSC_SNAPSHOT_SIZE])
{
    struct row row = {.path = image->path, .events = image_event(image, 0), .count = event};
    struct image part;
    enum outcome outcome = assemble(&part, &row, HSC_MAX_SPACING, state);

    if (outcome == DONE)
        image_free(&part);
    return outcome;
}
