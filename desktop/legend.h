/* The legend of a picture. */
#ifndef LEGEND_H
#define LEGEND_H

#include "sheet.h"

/* How many rows it has. */
int legend_rows(const struct sheet *sheet);

/* Prints what each line and mark stands for, how many marks there are, and which presets and limits are not shown. */
void legend_print(const struct sheet *sheet);

#endif
