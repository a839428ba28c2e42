/* Numbers that the user gives. */
#ifndef NUMBER_H
#define NUMBER_H

#include "tell.h"

#include <stdint.h>

/* A decimal number: digits and nothing else, below 2^64. Anything else is told, by the operand's name, and fails. */
enum outcome number_parse(const char *operand, const char *text, uint64_t *number);

#endif
