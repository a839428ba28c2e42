/* The fields of a snapshot in its 68 bytes, well formed or not. */
#ifndef LAYOUT_H
#define LAYOUT_H

#include "hsc.h"

#include <stdint.h>

/* Prints a line for each field that differs, with its number in the one snapshot and in the other. */
void layout_print_differences(const uint8_t stored[HSC_SNAPSHOT_SIZE], const uint8_t replayed[HSC_SNAPSHOT_SIZE]);

#endif
