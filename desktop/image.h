/* A trace image in memory, read from its file. */
#ifndef IMAGE_H
#define IMAGE_H

#include "file.h"
#include "hsc.h"
#include "tell.h"

#include <stddef.h>
#include <stdint.h>
#include <sys/stat.h>

struct image {
    const char *path;
    struct stat status; /* of the file that was read */
    uint8_t *bytes;
    size_t size;
    uint32_t events;
    uint32_t snapshots;
    uint32_t spacing;
};

/*
 * Reads an image to which none of refusals 1 to 4 applies; events and snapshots are not looked at. A file of the wrong
 * length is refused when its header has been read, whatever its size. Where it is done, image_free is owed.
 */
enum outcome image_read(struct image *image, const struct file *file);

/* The same of the file of this path, or of standard input. */
enum outcome image_load(struct image *image, const char *path);

/* Takes the numbers of a header to which neither refusal 2 nor 3 applies, and the size that they ask for. */
void image_measure(struct image *image, const uint8_t header[HSC_HEADER_SIZE]);

/* Prints the header's numbers on standard error, in a message about the path. No line end. */
void image_print_header(const char *path, const uint8_t header[HSC_HEADER_SIZE]);

void image_free(struct image *image);

const uint8_t *image_event(const struct image *image, uint32_t place);

/* Whether the event is legal; one that is not is told and refused, at its place. */
enum outcome image_check_event(const struct image *image, uint32_t place);

uint8_t *image_snapshot(const struct image *image, uint32_t index);

#endif
