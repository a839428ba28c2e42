/* Numbers that the user gives. */
#include "number.h"

#include <errno.h>
#include <stdio.h>
#include <stdlib.h>
#include <string.h>

static enum outcome refuse(const char *operand, const char *text, const char *reason)
{
    fprintf(stderr, "hsc: %s: '%s' is %s\n", operand, text, reason);
    return FAILED;
}

enum outcome number_parse(const char *operand, const char *text, uint64_t *number)
{
    if (*text == '\0' || text[strspn(text, "0123456789")] != '\0')
        return refuse(operand, text, "not a decimal number");
    errno = 0;
    *number = strtoull(text, NULL, 10);
    if (errno != 0)
        return refuse(operand, text, "too large a number");
    return DONE;
}
