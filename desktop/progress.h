/* How far a reception has come: one line on a terminal, written over again. */
#ifndef PROGRESS_H
#define PROGRESS_H

#include "reception.h"

#include <stdbool.h>
#include <stddef.h>
#include <time.h>

struct progress {
    bool terminal;        /* standard error is one; else nothing is written */
    bool begun;           /* a line is written */
    size_t bytes;         /* of how many it speaks */
    struct timespec time; /* when it was written */
};

void progress_begin(struct progress *progress);

/* Writes the line anew where more has come; not if it was written a moment ago. */
void progress_follow(struct progress *progress, const struct reception *reception);

/* How long may be waited before progress_show is called, in milliseconds; FOR_EVER where nothing is to be shown. */
int progress_patience(const struct progress *progress, const struct reception *reception);

/* Writes the line anew where more has come. */
void progress_show(struct progress *progress, const struct reception *reception);

#endif
