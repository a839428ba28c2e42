/* Text within XML. */
#ifndef XML_H
#define XML_H

#include <stddef.h>
#include <stdio.h>

/*
 * Prints a text of any bytes so that XML takes it: what has a meaning there as an entity, and what is no character
 * there as a question mark. Of more characters than most the rest is three dots.
 */
void xml_print(FILE *stream, const char *text, size_t most);

#endif
