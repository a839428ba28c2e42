/* An image that a command changes, and where it goes: over its file, to another one (-o), or nowhere (--dry-run). */
#ifndef EDIT_H
#define EDIT_H

#include "image.h"
#include "request.h"
#include "target.h"
#include "tell.h"

#include <stdbool.h>

struct edit {
    struct image image;
    struct target target; /* not opened in a dry run */
    bool dry;
    bool other;   /* the target is another file than the image's */
    bool written; /* edit_write was done */
};

/*
 * Reads the image that the first operand names. A file that is to be replaced is locked before anything is read. Where
 * it is done, edit_close is owed.
 */
enum outcome edit_open(struct edit *edit, const struct request *request);

/* Writes the image's bytes to where they go. */
enum outcome edit_write(struct edit *edit);

/* Prints where they went, if not over the image, and sees that all that was printed about it is. */
enum outcome edit_tell(const struct edit *edit);

void edit_close(struct edit *edit);

#endif
