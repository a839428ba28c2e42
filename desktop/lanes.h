/* The marks of a picture, in a lane for each kind. */
#ifndef LANES_H
#define LANES_H

#include "sheet.h"

/* Shades the frame where events are blank; to be printed below all else. */
void lanes_shade(const struct sheet *sheet);

/* Prints a lane above the frame for each kind of mark that there is. */
void lanes_print(const struct sheet *sheet);

#endif
