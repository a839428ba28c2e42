/* An image in one line. */
#ifndef SUMMARY_H
#define SUMMARY_H

#include "hsc.h"
#include "image.h"
#include "tell.h"

#include <stdint.h>

/* Prints the counts of a replayed image and its state after the last event. */
enum outcome summary_print(const struct image *image, const uint8_t last[HSC_SNAPSHOT_SIZE]);

#endif
