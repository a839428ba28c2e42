/* An image that comes in chunks. The reader judges it and gives its snapshots; the bytes are kept here. */
#include "reception.h"

#include <stdio.h>
#include <stdlib.h>
#include <string.h>

void reception_begin(struct reception *reception, const char *path)
{
    *reception = (struct reception){.image = {.path = path}};
    hsc_reader_new(reception->reader);
}

/* Keeps bytes that were taken. The reader stops at the header's end, so that none are from both sides of it. */
static void keep(struct reception *reception, const uint8_t *bytes, size_t size)
{
    uint8_t *kept = reception->image.bytes == NULL ? reception->header : reception->image.bytes;

    memcpy(kept + reception->bytes, bytes, size);
    reception->bytes += size;
}

/* The header is whole: it says how much will come. */
static enum outcome make_room(struct reception *reception)
{
    struct image *image = &reception->image;

    image_measure(image, reception->header);
    image->bytes = malloc(image->size);
    if (image->bytes == NULL)
        return tell_errno(image->path, "no memory for the image");
    memcpy(image->bytes, reception->header, HSC_HEADER_SIZE);
    reception->table = malloc((size_t)image->snapshots * HSC_SNAPSHOT_SIZE);
    if (reception->table == NULL)
        return tell_errno(image->path, "no memory for the table");
    return DONE;
}

/* Keeps a snapshot that the reader gave; the first comes with the header's end. */
static enum outcome keep_snapshot(struct reception *reception, const uint8_t snapshot[HSC_SNAPSHOT_SIZE])
{
    enum outcome outcome = reception->snapshots == 0 ? make_room(reception) : DONE;

    if (outcome != DONE)
        return outcome;
    memcpy(reception->table + (size_t)reception->snapshots * HSC_SNAPSHOT_SIZE, snapshot, HSC_SNAPSHOT_SIZE);
    reception->snapshots++;
    return DONE;
}

/* The header's numbers, and what a good one asks for. */
static void print_header(const struct reception *reception)
{
    image_print_header(reception->image.path, reception->header);
    if (reception->image.bytes != NULL)
        fprintf(stderr, "; image: %zu bytes", reception->image.size);
    fprintf(stderr, "\n");
}

static enum outcome refuse(const struct reception *reception, uint64_t status, size_t bytes, bool ended)
{
    enum outcome outcome = tell_refusal_after(reception->image.path, status, bytes, ended);

    if (hsc_number(status) != HSC_REFUSED_SHORT && hsc_number(status) != HSC_REFUSED_EVENT)
        print_header(reception);
    return outcome;
}

/* The reader refuses the chunk, at the header's last byte, at an event's, or at the first byte past the image. */
static enum outcome refuse_chunk(struct reception *reception, const uint8_t *chunk, uint64_t status)
{
    switch (hsc_number(status)) {
    case HSC_REFUSED_EVENT:
        return refuse(reception, status, HSC_HEADER_SIZE + ((size_t)hsc_place(status) + 1) * HSC_EVENT_SIZE, false);
    case HSC_REFUSED_LENGTH:
        return refuse(reception, status, reception->image.size + 1, false);
    default:
        keep(reception, chunk, HSC_HEADER_SIZE - reception->bytes);
        return refuse(reception, status, HSC_HEADER_SIZE, false);
    }
}

enum outcome reception_take(struct reception *reception, const uint8_t *chunk, size_t size)
{
    enum outcome outcome = DONE;

    while (outcome == DONE && size > 0) {
        uint8_t snapshot[HSC_SNAPSHOT_SIZE];
        uint64_t taken[2];
        uint64_t status = hsc_reader_feed(reception->reader, chunk, size, snapshot, sizeof snapshot, taken);

        if (status != HSC_DONE)
            return refuse_chunk(reception, chunk, status);
        keep(reception, chunk, (size_t)taken[0]);
        if (taken[1] == 1)
            outcome = keep_snapshot(reception, snapshot);
        chunk += taken[0];
        size -= (size_t)taken[0];
    }
    return outcome;
}

enum outcome reception_end(struct reception *reception)
{
    struct comparison *comparison = &reception->comparison;
    uint64_t status = hsc_reader_end(reception->reader, comparison->last, sizeof comparison->last);

    if (status != HSC_DONE)
        return refuse(reception, status, reception->bytes, true);
    table_exchange(&reception->image, reception->table, comparison);
    return DONE;
}

uint32_t reception_events(const struct reception *reception)
{
    size_t events;

    if (reception->bytes < HSC_HEADER_SIZE)
        return 0;
    events = (reception->bytes - HSC_HEADER_SIZE) / HSC_EVENT_SIZE;
    return events < reception->image.events ? (uint32_t)events : reception->image.events;
}

bool reception_is_whole(const struct reception *reception)
{
    return reception->image.bytes != NULL && reception->bytes == reception->image.size;
}

void reception_free(struct reception *reception)
{
    image_free(&reception->image);
    free(reception->table);
}
