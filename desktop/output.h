/* The file OUT that a command makes of another one. */
#ifndef OUTPUT_H
#define OUTPUT_H

#include "tell.h"

#include <stddef.h>
#include <stdint.h>

/* Writes OUT whole or not at all. It is not the file that the bytes were made of, nor standard output. */
enum outcome output_write(const char *out, const char *source, const uint8_t *bytes, size_t size);

/* Whether OUT could be written now, for a command that has long to wait for its bytes; if not, that is told. */
enum outcome output_check(const char *out);

/* Prints where the bytes went, and sees that all that was printed is. */
enum outcome output_tell(const char *out);

#endif
