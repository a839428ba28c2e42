/* A trace image in memory. The library judges it, the header alone first. */
#include "image.h"

#include "bytes.h"
#include "header.h"

#include <inttypes.h>
#include <stdio.h>
#include <stdlib.h>
#include <string.h>

static uint32_t number_at(const uint8_t *bytes)
{
    return bytes_number(bytes, 4);
}

static size_t snapshot_offset(uint32_t events)
{
    return HSC_HEADER_SIZE + (size_t)events * HSC_EVENT_SIZE;
}

void image_measure(struct image *image, const uint8_t header[HSC_HEADER_SIZE])
{
    image->events = number_at(header + EVENTS_AT);
    image->snapshots = number_at(header + SNAPSHOTS_AT);
    image->spacing = number_at(header + SPACING_AT);
    image->size = snapshot_offset(image->events) + (size_t)image->snapshots * HSC_SNAPSHOT_SIZE;
}

void image_print_header(const char *path, const uint8_t header[HSC_HEADER_SIZE])
{
    fprintf(stderr,
            "hsc: %s: header: event count %" PRIu32 ", event offset %" PRIu32 ", snapshot count %" PRIu32
            ", snapshot offset %" PRIu32 ", spacing %" PRIu32 ", sixth %" PRIu32,
            path, number_at(header + EVENTS_AT), number_at(header + EVENT_OFFSET_AT), number_at(header + SNAPSHOTS_AT),
            number_at(header + SNAPSHOT_OFFSET_AT), number_at(header + SPACING_AT), number_at(header + SIXTH_AT));
}

/* Tells a refusal with the numbers that it is about. */
static enum outcome refuse_header(const struct file *file, const uint8_t *header, uint64_t status)
{
    enum outcome outcome = tell_refusal(file->path, status);

    if (hsc_number(status) == HSC_REFUSED_SHORT)
        return outcome;
    image_print_header(file->path, header);
    if (!file->stream)
        fprintf(stderr, "; file: %jd bytes", (intmax_t)file->status.st_size);
    fprintf(stderr, "\n");
    return outcome;
}

/*
 * Reads the header and asks the library for refusals 1 to 4 of the whole file. The header alone is never an image: the
 * library refuses it as it would the file, but that 4 stands for a good header, whose length is then compared here.
 */
static enum outcome read_header(struct image *image, const struct file *file, uint8_t header[HSC_HEADER_SIZE])
{
    uint8_t last[HSC_SNAPSHOT_SIZE];
    size_t size;
    enum outcome outcome = file_read(file, header, file_size_up_to(file, HSC_HEADER_SIZE), &size);
    uint64_t status;

    if (outcome != DONE)
        return outcome;
    status = hsc_replay(header, size, last);
    if (hsc_number(status) != HSC_REFUSED_LENGTH)
        return refuse_header(file, header, status);
    image_measure(image, header);
    if (!file->stream && file->status.st_size != (off_t)image->size)
        return refuse_header(file, header, status);
    return DONE;
}

/* The whole file, whose header is read and good. Of standard input one byte more is asked for, to see its end. */
static enum outcome read_rest(struct image *image, const struct file *file, const uint8_t header[HSC_HEADER_SIZE])
{
    size_t rest = image->size - HSC_HEADER_SIZE;
    size_t count;
    enum outcome outcome;

    image->bytes = malloc(image->size + 1);
    if (image->bytes == NULL)
        return tell_errno(file->path, "no memory for the image");
    memcpy(image->bytes, header, HSC_HEADER_SIZE);
    outcome = file_read(file, image->bytes + HSC_HEADER_SIZE, file->stream ? rest + 1 : rest, &count);
    if (outcome == DONE && count != rest)
        outcome = refuse_header(file, header, HSC_REFUSED_LENGTH);
    if (outcome != DONE)
        image_free(image);
    return outcome;
}

enum outcome image_read(struct image *image, const struct file *file)
{
    uint8_t header[HSC_HEADER_SIZE];
    enum outcome outcome;

    *image = (struct image){.path = file->path, .status = file->status};
    outcome = read_header(image, file, header);
    return outcome == DONE ? read_rest(image, file, header) : outcome;
}

enum outcome image_load(struct image *image, const char *path)
{
    struct file file;
    enum outcome outcome = file_open(&file, path);

    if (outcome != DONE)
        return outcome;
    outcome = image_read(image, &file);
    file_close(&file);
    return outcome;
}

void image_free(struct image *image)
{
    free(image->bytes);
    image->bytes = NULL;
}

const uint8_t *image_event(const struct image *image, uint32_t place)
{
    return image->bytes + HSC_HEADER_SIZE + (size_t)place * HSC_EVENT_SIZE;
}

enum outcome image_check_event(const struct image *image, uint32_t place)
{
    if (hsc_event_check(image_event(image, place), HSC_EVENT_SIZE) == 1)
        return DONE;
    return tell_refusal(image->path, (uint64_t)place << 32 | HSC_REFUSED_EVENT);
}

uint8_t *image_snapshot(const struct image *image, uint32_t index)
{
    return image->bytes + snapshot_offset(image->events) + (size_t)index * HSC_SNAPSHOT_SIZE;
}
