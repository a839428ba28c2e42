/* The axes of a picture. */
#ifndef AXES_H
#define AXES_H

#include "sheet.h"

/* Prints the frame, a line across it for each round number, the numbers, and what they count. */
void axes_print(const struct sheet *sheet);

#endif
