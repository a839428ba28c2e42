/* A state in words. */
#ifndef FIELDS_H
#define FIELDS_H

#include "hsc.h"

#include <stdint.h>

/* Prints what hsc_read wrote, for a well-formed snapshot. */
void fields_print(const int32_t fields[HSC_FIELD_COUNT]);

#endif
