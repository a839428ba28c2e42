/* The curves within the frame of a picture. */
#ifndef PLOT_H
#define PLOT_H

#include "sheet.h"

/* The active presets and limits as lines where they hold, as far as the vertical axis shows them. */
void plot_limits(const struct sheet *sheet);

/* The count as a step curve. */
void plot_count(const struct sheet *sheet);

/* The names and values of the lines; to be printed over all else. */
void plot_labels(const struct sheet *sheet);

#endif
