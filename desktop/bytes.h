/* Little-endian numbers of one, two or four bytes. */
#ifndef BYTES_H
#define BYTES_H

#include <stddef.h>
#include <stdint.h>

/* The number in so many bytes. */
uint32_t bytes_number(const uint8_t *bytes, size_t width);

/* The same by two's complement, in two or four bytes. */
int32_t bytes_signed(const uint8_t *bytes, size_t width);

/* Puts the number into four bytes. */
void bytes_put(uint8_t *bytes, uint32_t number);

#endif
