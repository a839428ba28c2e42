/* An image's table of snapshots beside the one that replay writes. */
#ifndef TABLE_H
#define TABLE_H

#include "hsc.h"
#include "image.h"
#include "tell.h"

#include <stdint.h>
#include <stdio.h>

struct comparison {
    uint32_t different;                /* how many snapshots differ; none: the table is true */
    uint32_t first;                    /* the index of the first that differs */
    uint8_t stored[HSC_SNAPSHOT_SIZE]; /* that one as it was; in the image it is the true one now */
    uint8_t last[HSC_SNAPSHOT_SIZE];   /* the state after the last event */
};

/* Replays the image in memory and compares the table it had. Replay's refusals are told, and leave the image. */
enum outcome table_replay(const struct image *image, struct comparison *comparison);

/*
 * Exchanges the image's table for this one, which is what replay writes, and compares the two. The last state of the
 * comparison stays.
 */
void table_exchange(const struct image *image, uint8_t *table, struct comparison *comparison);

/* Prints a line: whether the table was true when the words say, and if not, what differs. */
void table_print(const struct image *image, const struct comparison *comparison, const char *when);

/* Prints which snapshot differs first and how many do; not for a true table. No line end. */
void table_print_difference(FILE *stream, const struct image *image, const struct comparison *comparison);

#endif
