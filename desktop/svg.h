/* A night as a picture: SVG 1.1, which stands alone. */
#ifndef SVG_H
#define SVG_H

#include "picture.h"

#include <stdio.h>

void svg_print(FILE *stream, const struct night *night, const struct picture *picture);

#endif
